/* Tests forks and threads that use a shared base. Part of tests/c_shared.c. */
#define _GNU_SOURCE
#include "c_shared.h"
#include <pthread.h>
#include <signal.h>
#include <sys/file.h>
#include <sys/wait.h>
#include <time.h>
#include <unistd.h>

void test_forks(void)
{
    boddurci_shared *shared = opened("forks", 0);
    uint32_t counter = counter_of(shared);
    EXPECT(increment(shared, counter, "a") == 1);
    for (int i = 0; i < 4; i++)
        if (fork() == 0) {
            for (int j = 0; j < 50; j++)
                if (increment(shared, counter, "a") == 0)
                    _exit(1);
            boddurci_close_shared(shared);
            _exit(0);
        }
    for (int j = 0; j < 50; j++)
        EXPECT(increment(shared, counter, "a") != 0);
    for (int i = 0, status; i < 4; i++)
        EXPECT(wait(&status) > 0 && status == 0);
    EXPECT(increment(shared, counter, "a") == 252);
    boddurci_close_shared(shared);
}

/* If the parent was killed during a call, its child does not hold the locks of that call. */
void test_orphans(void)
{
    boddurci_shared *shared = opened("orphans", 0);
    EXPECT(store(shared, "a", "b") == BODDURCI_DONE);
    int ends[2], status;
    EXPECT(pipe(ends) == 0);
    pid_t parent = fork();
    if (parent == 0) {
        store(shared, "a", "c");
        if (fork() == 0) {
            char none;
            close(ends[1]);
            (void)!read(ends[0], &none, 1);
            _exit(0);
        }
        for (;;)
            (void)!store(shared, "a", "d");
    }
    nanosleep(&(struct timespec){0, 100000000}, NULL);
    kill(parent, SIGKILL);
    EXPECT(waitpid(parent, &status, 0) == parent && store(shared, "a", "e") == BODDURCI_DONE && has(shared, "a", "e"));
    boddurci_close_shared(shared);
    close(ends[0]);
    close(ends[1]);
}

static void *store_always(void *shared)
{
    boddurci_fault own;
    for (;;)
        (void)!boddurci_shared_store(shared, BYTES("a"), BYTES("d"), 1, &own);
    return NULL;
}

/* A child that was forked during a call of another thread does not hold the locks of that call either. */
void test_orphans_of_threads(void)
{
    boddurci_shared *shared = opened("orphans", 0);
    int ends[2], status;
    pthread_t thread;
    EXPECT(pipe(ends) == 0);
    for (int i = 0; i < 8; i++) {
        pid_t parent = fork();
        if (parent == 0) {
            if (pthread_create(&thread, NULL, store_always, shared) != 0)
                _exit(1);
            rest();
            if (fork() == 0) {
                char none;
                close(ends[1]);
                (void)!read(ends[0], &none, 1);
                _exit(0);
            }
            for (;;)
                pause();
        }
        nanosleep(&(struct timespec){0, 50000000}, NULL);
        kill(parent, SIGKILL);
        EXPECT(waitpid(parent, &status, 0) == parent && WIFSIGNALED(status) && store(shared, "a", "e") == BODDURCI_DONE);
    }
    boddurci_close_shared(shared);
    close(ends[0]);
    close(ends[1]);
}

static boddurci_shared *waiting;

static void *wait_in_call(void *unused)
{
    boddurci_fault own;
    (void)!boddurci_shared_store(waiting, BYTES("a"), BYTES("b"), 1, &own);
    return unused;
}

/* Tests a fork during a call of another thread. */
void test_lost(void)
{
    pthread_t thread;
    waiting = opened("lost", 0);
    EXPECT(store(waiting, "a", "a") == BODDURCI_DONE);
    int lock = taken("lost.lock", LOCK_EX), status;
    EXPECT(pthread_create(&thread, NULL, wait_in_call, NULL) == 0);
    rest();
    pid_t child = fork();
    if (child == 0) {
        int is_forked = store(waiting, "a", "c") == BODDURCI_FORKED && fault.status == BODDURCI_FORKED;
        boddurci_close_shared(waiting);
        _exit(is_forked ? 0 : 1);
    }
    EXPECT(waitpid(child, &status, 0) == child && status == 0);
    EXPECT(boddurci_shared_wait(waiting, 20) == BODDURCI_DONE && store(waiting, "a", "d") == BODDURCI_LOCKED);
    close(lock);
    pthread_join(thread, NULL);
    EXPECT(has(waiting, "a", "b"));
    boddurci_close_shared(waiting);
}

enum { THREADS = 6, EACH = 150 };
static boddurci_shared *of_all;
static uint32_t counter_of_all;
static _Atomic int seen_by[THREADS * EACH + 1];

static void *count_in_thread(void *own)
{
    boddurci_fault fault_here;
    boddurci_shared *shared = own != NULL ? own : of_all;
    for (int i = 0; i < EACH; i++) {
        uint64_t made = increment_with(shared, counter_of_all, "a", &fault_here);
        if (made == 0 || made > THREADS * EACH)
            return "an increment has failed";
        seen_by[made]++;
    }
    return NULL;
}

/* Tests threads. Half of them share one handle. */
void test_threads(void)
{
    pthread_t threads[THREADS];
    boddurci_shared *own[THREADS] = {NULL};
    of_all = opened("threads", 0);
    counter_of_all = counter_of(of_all);
    for (int i = 0; i < THREADS; i++) {
        if (i % 2)
            EXPECT(counter_of(own[i] = opened("threads", 0)) == counter_of_all);
        EXPECT(pthread_create(&threads[i], NULL, count_in_thread, own[i]) == 0);
    }
    void *why;
    for (int i = 0; i < THREADS; i++)
        EXPECT(pthread_join(threads[i], &why) == 0 && why == NULL);
    for (int i = 1; i <= THREADS * EACH; i++)
        EXPECT(seen_by[i] == 1);
    for (int i = 0; i < THREADS; i++)
        boddurci_close_shared(own[i]);
    boddurci_close_shared(of_all);
}
