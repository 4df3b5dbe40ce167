"""Runs tasks in parallel, each after the tasks that it waits for. Tasks that begin the longest chains run first."""

import concurrent.futures
import os
import re

# The usual memory of a check, in bytes; the maximum number of jobs of a task.
MEMORY = 3_000_000_000
MOST_JOBS = 4


class Task:
    """A task: its key, the keys of the tasks that it waits for, its estimated seconds, and a function that takes the number of its
    jobs. A task with `fills` runs only if no other task can use the place."""

    def __init__(self, key, waits, seconds, call, fills=False):
        self.key, self.waits, self.seconds, self.call, self.fills = key, waits, seconds, call, fills


def places():
    """Returns the number of tasks at a time: one for each core, but not more than the memory allows."""
    cores = len(os.sched_getaffinity(0))
    with open("/proc/meminfo") as it:
        free = 1024 * int(re.search(r"MemAvailable:\s+(\d+)", it.read())[1])
    return max(1, min(cores, free // MEMORY))


def chains(tasks):
    """Returns for each key the seconds of the longest chain of tasks that begins with its task."""
    seconds = {it.key: it.seconds for it in tasks}
    longest = dict(seconds)
    # The list has each task after the tasks that it waits for.
    for task in reversed(tasks):
        for key in task.waits:
            longest[key] = max(longest[key], seconds[key] + longest[task.key])
    return longest


def jobs_for(task, chain, rest, spare):
    """Returns the number of jobs of a task, at most MOST_JOBS: one, plus the places that no other task can use; at least two if the other
    tasks end before its chain. A task with `fills` has one job."""
    return 1 if task.fills else min(MOST_JOBS, max(1 + spare, 1 + (chain > rest)))


def run_all(tasks, at_once, given):
    """Runs the tasks, and stores the result of each task in `given` under its key."""
    longest = chains(tasks)
    left = sorted(tasks, key=lambda it: (it.fills, -longest[it.key]))
    running = {}
    with concurrent.futures.ThreadPoolExecutor(at_once) as pool:
        while left or running:
            ready = [it for it in left if all(key in given for key in it.waits)]
            for task in list(ready):
                free = at_once - sum(jobs for _, jobs in running.values())
                if free < 1:
                    break
                rest = sum(it.seconds for it in [*left, *[it for it, _ in running.values()]]) / at_once
                jobs = jobs_for(task, longest[task.key], rest, max(0, free - len(ready)))
                left.remove(task)
                ready.remove(task)
                running[pool.submit(task.call, jobs)] = task, jobs
            for it in concurrent.futures.wait(running, return_when=concurrent.futures.FIRST_COMPLETED).done:
                given[running.pop(it)[0].key] = it.result()
