/* Shares saves between threads: each save serves all calls of boddurci_save that wait when it takes its calls. include/boddurci_files.h states
 * the guarantees. */
#define _POSIX_C_SOURCE 200809L
#include "boddurci_saves.h"
#include <sched.h>
#include <semaphore.h>

/* The state of a waiting call. */
enum state { WAITS, SLEEPS, HAS_TURN, IS_SERVED };

/* A call of boddurci_save. It is on the stack of its thread, which waits until the call gets the turn to save or is served. */
struct boddurci_call {
    struct boddurci_call *next;
    boddurci_fault *fault;
    uint32_t status;
    int insists;
    int state;  /* one of enum state, atomic; the thread continues after HAS_TURN or IS_SERVED */
    sem_t turn; /* posted if the thread sleeps */
};

/* In nanoseconds. If the last save took less time than this, and a twenty-fifth more for each call that it served, a waiting thread spins before
 * it sleeps. With many threads a longer save is still short, since waking all of them would take longer. Tests set another value. */
#ifndef BODDURCI_LONG_SAVE
#define BODDURCI_LONG_SAVE 500000
#endif
static const int64_t LONG_SAVE = BODDURCI_LONG_SAVE, LONG_CALL = BODDURCI_LONG_SAVE / 25;

/* In nanoseconds: about the time that it takes to wake a thread. */
static const int64_t MOMENT = 40000;

/* In nanoseconds: the longest time for which the turn to save is left free for the thread that has just saved. */
static const int64_t RETURN = 5000;

/* The number of saves that do not wait after a wait in vain. */
enum { SKIPS = 7 };

static int64_t now(void)
{
    struct timespec time;
    clock_gettime(CLOCK_MONOTONIC, &time);
    return (int64_t)time.tv_sec * 1000000000 + time.tv_nsec;
}

/* Pauses for some 40 nanoseconds, so that the other hardware thread of the core can run. */
static void pause_shortly(void)
{
#if defined(__x86_64__) || defined(__i386__)
    __builtin_ia32_pause();
#elif defined(__aarch64__)
    __asm__ volatile("isb");
#endif
}

/* The first tries do not yield the processor, since the holder is about to unlock. */
void boddurci_lock_soon(pthread_mutex_t *mutex)
{
    enum { PAUSES = 100, TRIES = 200 };
    for (int tries = 0; tries < TRIES; tries++) {
        if (pthread_mutex_trylock(mutex) == 0)
            return;
        if (tries < PAUSES)
            pause_shortly();
        else
            sched_yield();
    }
    pthread_mutex_lock(mutex);
}

int boddurci_group_init(struct boddurci_group *group)
{
    group->first = NULL;
    group->last = &group->first;
    group->calls = NULL;
    group->own = NULL;
    group->is_saving = group->waiting = group->others = group->skips = group->skips_return = group->served = 0;
    group->freed = 0;
    group->took = group->limit = LONG_SAVE;
    return pthread_mutex_init(&group->mutex, NULL) == 0 ? 0 : -1;
}

void boddurci_group_destroy(struct boddurci_group *group)
{
    pthread_mutex_destroy(&group->mutex);
}

/* Adds a call to the list. Returns 1 if the call must wait, and 0 if it must save now. */
static int has_to_wait(struct boddurci_group *group, struct boddurci_call *call)
{
    boddurci_lock_soon(&group->mutex);
    int waits = group->is_saving;
    __atomic_store_n(&group->is_saving, 1, __ATOMIC_RELAXED);
    *group->last = call;
    group->last = &call->next;
    __atomic_add_fetch(&group->waiting, 1, __ATOMIC_RELAXED);
    pthread_mutex_unlock(&group->mutex);
    return waits;
}

static int waiting_in(const struct boddurci_group *group)
{
    return __atomic_load_n(&group->waiting, __ATOMIC_RELAXED);
}

/* Returns the duration of the last save, in nanoseconds, or -1 if that was long. */
static int64_t short_time(const struct boddurci_group *group)
{
    int64_t took = __atomic_load_n(&group->took, __ATOMIC_RELAXED);
    return took < __atomic_load_n(&group->limit, __ATOMIC_RELAXED) ? took : -1;
}

/* Returns how long a save may wait for more calls, in nanoseconds. The time is longer after a long save, since its waiting threads sleep
 * and wake one by one. */
static int64_t patience(const struct boddurci_group *group)
{
    static const int64_t MOST = 1000000;
    int64_t took = __atomic_load_n(&group->took, __ATOMIC_RELAXED);
    if (short_time(group) >= 0)
        return MOMENT;
    return took / 8 < MOST ? took / 8 : MOST;
}

/* Waits until the list has `count` calls, or until the time `end`. Returns the number of calls in the list. */
static int await_calls(const struct boddurci_group *group, int count, int64_t end)
{
    const struct timespec moment = {0, (long)MOMENT};
    int is_short = short_time(group) >= 0;
    while (waiting_in(group) < count && now() < end)
        (void)!(is_short ? sched_yield() : nanosleep(&moment, NULL));
    return waiting_in(group);
}

/* Returns whether a save waits once more, given the numbers of calls before and after the last wait: calls came during that wait, and at
 * least two thirds of the expected calls have come. */
static int goes_on(int before, int has, int others)
{
    return has > before && 3 * has >= 2 * others;
}

/* Returns whether a save waits for other calls: the last save served several calls, or calls came during it, and no wait was in vain
 * lately. */
static int expects_calls(const struct boddurci_group *group)
{
    return group->others >= 2 && group->skips == 0;
}

/* Waits shortly for the threads that the last save served: they may save again, and then one save serves all of them. If most of them have
 * come, waits for the rest. If fewer have come, and none during the wait, the next SKIPS saves do not wait. A single thread does not
 * wait. */
static void await_others(struct boddurci_group *group)
{
    enum { MOMENTS = 8 };
    int64_t end = now();
    int others = group->others, had = waiting_in(group), before = had, has = had;
    if (!expects_calls(group)) {
        group->skips -= group->skips > 0;
        return;
    }
    for (int i = 0; i < MOMENTS && has < others && (i == 0 || goes_on(before, has, others)); i++) {
        before = has;
        end += patience(group);
        has = await_calls(group, others, end);
    }
    group->skips = had < others && has == had && 3 * has < 2 * others ? SKIPS : 0;
}

static int has_one_that_insists(const struct boddurci_call *call)
{
    while (call != NULL && !call->insists)
        call = call->next;
    return call != NULL;
}

int boddurci_group_awaits(const struct boddurci_group *group)
{
    return expects_calls(group) && short_time(group) >= 0;
}

int boddurci_group_take(struct boddurci_group *group)
{
    await_others(group);
    group->begun = now();
    boddurci_lock_soon(&group->mutex);
    group->calls = group->first;
    group->first = NULL;
    group->last = &group->first;
    group->served = __atomic_exchange_n(&group->waiting, 0, __ATOMIC_RELAXED);
    pthread_mutex_unlock(&group->mutex);
    return has_one_that_insists(group->calls);
}

/* Lets a call continue. Once the call has the new state, it may no longer exist, unless its thread sleeps. */
static void wake(struct boddurci_call *call, int state)
{
    if (__atomic_exchange_n(&call->state, state, __ATOMIC_ACQ_REL) == SLEEPS)
        sem_post(&call->turn);
}

static void serve(struct boddurci_call *call, uint32_t status, const boddurci_fault *fault)
{
    call->status = status;
    *call->fault = *fault;
    wake(call, IS_SERVED);
}

/* Copies the result of a save to its calls, except that of its thread, and wakes them. The next save expects the calls that wait now and those
 * that are served, whose threads may save again. */
static void serve_others(struct boddurci_group *group, uint32_t status, const boddurci_fault *fault)
{
    struct boddurci_call *next, *call = group->calls;
    group->calls = NULL;
    group->others = waiting_in(group) + group->served;
    for (; call != NULL; call = next) {
        next = call->next;
        if (call != group->own)
            serve(call, status, fault);
    }
}

void boddurci_group_serve(struct boddurci_group *group)
{
    boddurci_fault none;
    serve_others(group, boddurci_no_fault(&none), &none);
}

/* ---- the turn to save */

/* Takes the turn for a call, under the mutex. Returns 0 if a thread has the turn, or if the call was served meanwhile. */
static int takes_turn(struct boddurci_group *group, const struct boddurci_call *call)
{
    int takes = !group->is_saving && __atomic_load_n(&call->state, __ATOMIC_RELAXED) == WAITS;
    if (takes)
        __atomic_store_n(&group->is_saving, 1, __ATOMIC_RELAXED);
    return takes;
}

/* Takes the turn if it has been free for RETURN nanoseconds: the thread that saved last has not called again. The next SKIPS saves do not wait
 * for it. */
static int takes_free_turn(struct boddurci_group *group, const struct boddurci_call *call)
{
    int is_free = !__atomic_load_n(&group->is_saving, __ATOMIC_RELAXED);
    if (!is_free || now() - __atomic_load_n(&group->freed, __ATOMIC_RELAXED) < RETURN)
        return 0;
    boddurci_lock_soon(&group->mutex);
    int takes = takes_turn(group, call);
    if (takes)
        group->skips_return = SKIPS;
    pthread_mutex_unlock(&group->mutex);
    return takes;
}

/* Lets a thread sleep until its call is served or gets the turn, or takes the turn if nobody has it. Returns the state of the call then. A
 * thread that sleeps waits for the post, even if its call has another state already: the post still needs the call. */
static int sleep_or_take(struct boddurci_group *group, struct boddurci_call *call)
{
    int state = WAITS;
    boddurci_lock_soon(&group->mutex);
    int takes = takes_turn(group, call);
    int sleeps = !takes && __atomic_compare_exchange_n(&call->state, &state, SLEEPS, 0, __ATOMIC_ACQ_REL, __ATOMIC_ACQUIRE);
    pthread_mutex_unlock(&group->mutex);
    while (sleeps && sem_wait(&call->turn) != 0) /* a signal was handled */
        continue;
    return takes ? HAS_TURN : __atomic_load_n(&call->state, __ATOMIC_ACQUIRE);
}

/* Returns whether to leave the turn free for a moment. The thread that has just saved takes it if it calls again, since its processor has the
 * data of the save in its cache. If it does not, a thread that polls takes the turn. The thread of the first call polls or is about to, and
 * does not fall asleep while the turn is free. */
static int frees_turn(struct boddurci_group *group, const struct boddurci_call *next)
{
    if (group->skips_return == 0)
        return __atomic_load_n(&next->state, __ATOMIC_RELAXED) == WAITS;
    group->skips_return--;
    return 0;
}

/* Gives the turn to save to the first waiting call, or leaves it free. That call exists until it has the turn, since nobody else empties the
 * list. */
static void pass_on(struct boddurci_group *group)
{
    boddurci_lock_soon(&group->mutex);
    struct boddurci_call *next = group->first;
    if (next != NULL && frees_turn(group, next))
        next = NULL;
    __atomic_store_n(&group->freed, now(), __ATOMIC_RELAXED);
    __atomic_store_n(&group->is_saving, next != NULL, __ATOMIC_RELAXED);
    pthread_mutex_unlock(&group->mutex);
    if (next != NULL)
        wake(next, HAS_TURN);
}

/* Waits until a call has the turn or is served. Waking a thread takes longer than a short save. So the thread first spins for about the
 * time of two saves, yielding the processor, and then sleeps. */
static int wait_for(struct boddurci_group *group, struct boddurci_call *call)
{
    int state = WAITS;
    int64_t took = short_time(group), end = took >= 0 ? now() + 2 * took + MOMENT : 0;
    while ((state = __atomic_load_n(&call->state, __ATOMIC_ACQUIRE)) == WAITS && now() < end) {
        if (takes_free_turn(group, call))
            return HAS_TURN;
        sched_yield();
    }
    return state == WAITS ? sleep_or_take(group, call) : state;
}

/* Saves for all waiting calls. `call` is one of them, that of this thread. */
static void save_for_all(struct boddurci_group *group, struct boddurci_call *call, boddurci_saving *save, boddurci_base *base)
{
    group->own = call;
    call->status = save(base, call->fault);
    if (group->calls != NULL)
        serve_others(group, call->status, call->fault);
    __atomic_store_n(&group->limit, LONG_SAVE + LONG_CALL * group->served, __ATOMIC_RELAXED);
    __atomic_store_n(&group->took, now() - group->begun, __ATOMIC_RELAXED);
    pass_on(group);
}

/* Disables cancellation meanwhile, since the call is in the list or other threads wait for its save. */
uint32_t boddurci_group_save(struct boddurci_group *group, boddurci_saving *save, boddurci_base *base, int insists, boddurci_fault *fault)
{
    struct boddurci_call call = {.fault = fault, .insists = insists, .state = WAITS};
    if (sem_init(&call.turn, 0, 0) != 0)
        return boddurci_fail_by_system(fault, "a thread cannot wait for its save");
    int could_be_cancelled = boddurci_hold_cancel();
    if (!has_to_wait(group, &call) || wait_for(group, &call) == HAS_TURN)
        save_for_all(group, &call, save, base);
    boddurci_give_cancel(could_be_cancelled);
    sem_destroy(&call.turn);
    return call.status;
}
