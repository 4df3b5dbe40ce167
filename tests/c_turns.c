/* Tests how threads get the turn to save (bindings/c/boddurci_group.c, which this file includes), with saves that do nothing. The clock and the
 * posts of the group go through this file. tests/c_library builds and runs it. */
#define _GNU_SOURCE
#include <pthread.h>
#include <semaphore.h>
#include <signal.h>
#include <stdatomic.h>
#include <stdio.h>
#include <string.h>
#include <time.h>
#include <unistd.h>

static int post(sem_t *turn);
static int read_clock(clockid_t clock, struct timespec *time);

/* A save of less than a second is short, so a waiting thread polls. */
#define BODDURCI_LONG_SAVE 1000000000
#define sem_post post
#define clock_gettime read_clock
#include "boddurci_group.c"
#undef sem_post
#undef clock_gettime

uint32_t boddurci_fail_by_system(boddurci_fault *fault, const char *text)
{
    (void)fault, (void)text;
    return BODDURCI_FILE_FAILED;
}

uint32_t boddurci_no_fault(boddurci_fault *fault)
{
    memset(fault, 0, sizeof *fault);
    return BODDURCI_DONE;
}

#define EXPECT(what)                                                                                                               \
    do {                                                                                                                           \
        if (!(what)) {                                                                                                             \
            fprintf(stderr, "c_turns.c:%d: not so: %s\n", __LINE__, #what);                                                        \
            _exit(1);                                                                                                              \
        }                                                                                                                          \
    } while (0)

static void rest(void)
{
    nanosleep(&(struct timespec){0, 1000000}, NULL);
}

#define AWAIT(what)                                                                                                                \
    do                                                                                                                             \
        rest();                                                                                                                    \
    while (!(what))

/* ---- two threads: the first one saves first, and the second one calls meanwhile */

static struct boddurci_group group;
static pthread_t second_thread;
static atomic_int is_saving, may_take, saves, first_returned, second_returned, posts, reads, is_by_second;
static _Thread_local int is_second;

/* On request a signal comes before the post, or the second thread stops at its second look at the clock until the first one has returned, or
 * the second thread always reads the same second. */
static atomic_int signals, stops_clock, is_clock_stopped, freezes_clock;
static atomic_int before_take; /* the first save takes its calls once the second call has come */

static int post(sem_t *turn)
{
    posts++;
    if (signals) {
        EXPECT(pthread_kill(second_thread, SIGUSR1) == 0);
        for (int i = 0; i < 50; i++)
            rest();
        EXPECT(!second_returned);
    }
    return sem_post(turn);
}

static int read_clock(clockid_t clock, struct timespec *time)
{
    if (stops_clock && is_second && ++reads == 2) {
        is_clock_stopped = 1;
        AWAIT(first_returned);
    }
    int status = clock_gettime(clock, time);
    if (freezes_clock && is_second)
        time->tv_sec = 0;
    return status;
}

/* A save with as many calls as its status says. */
static uint32_t save(boddurci_base *base, boddurci_fault *fault)
{
    uint32_t count = 0;
    int is_first = ++saves == 1;
    is_by_second = is_second;
    (void)fault, (void)base;
    if (is_first && before_take) {
        is_saving = 1;
        AWAIT(may_take);
    }
    boddurci_group_take(&group);
    for (const struct boddurci_call *call = group.calls; call != NULL; call = call->next)
        count++;
    if (is_first && !before_take) {
        is_saving = 1;
        AWAIT(may_take);
    }
    return 100 * (uint32_t)saves + count;
}

static uint32_t call(void)
{
    boddurci_fault fault;
    return boddurci_group_save(&group, save, NULL, 0, &fault);
}

static void *call_first(void *given)
{
    uint32_t *statuses = given;
    statuses[0] = call();
    if (freezes_clock)
        statuses[1] = call();
    first_returned = 1;
    return NULL;
}

static void *call_second(void *given)
{
    uint32_t *status = given;
    is_second = 1;
    *status = call();
    second_returned = 1;
    return NULL;
}

static int served_before; /* the number of calls of the save before the first one */

/* Makes both calls. A save counts as having taken `took` nanoseconds. If that was short, the second thread polls for twice that time. */
static void meet(int64_t took, uint32_t first[2], uint32_t *second)
{
    pthread_t first_thread;
    is_saving = may_take = saves = first_returned = second_returned = posts = reads = is_clock_stopped = 0;
    first[1] = 0;
    EXPECT(boddurci_group_init(&group) == 0);
    group.took = took;
    group.limit += LONG_CALL * served_before;
    EXPECT(pthread_create(&first_thread, NULL, call_first, first) == 0);
    AWAIT(is_saving);
    EXPECT(pthread_create(&second_thread, NULL, call_second, second) == 0);
    AWAIT(stops_clock ? is_clock_stopped : waiting_in(&group) == (before_take ? 2 : 1));
    for (int i = 0; i < 50; i++)
        rest();
    may_take = 1;
    EXPECT(pthread_join(first_thread, NULL) == 0 && pthread_join(second_thread, NULL) == 0);
    boddurci_group_destroy(&group);
}

static void hear(int number)
{
    (void)number;
}

int main(void)
{
    static const int64_t SHORT = 1000, POLLS = 400000000;
    uint32_t first[2], second;
    struct sigaction action = {.sa_handler = hear};
    EXPECT(sigaction(SIGUSR1, &action, NULL) == 0);
    alarm(100);
    /* A thread that sleeps returns after the post, even if a signal comes when its call is served. */
    before_take = signals = 1;
    meet(LONG_SAVE, first, &second);
    EXPECT(first[0] == 102 && second == 102 && saves == 1 && posts == 1);
    /* A save that took longer is short if it served many calls. */
    EXPECT(group.limit == LONG_SAVE + 2 * LONG_CALL && group.took >= 50000000 && group.took < LONG_SAVE);
    served_before = 20;
    meet(LONG_SAVE + 20 * LONG_CALL, first, &second);
    EXPECT(first[0] == 102 && second == 102 && saves == 1 && posts == 1);
    meet(LONG_SAVE + 20 * LONG_CALL - 1, first, &second);
    EXPECT(first[0] == 102 && second == 102 && saves == 1 && posts == 0);
    served_before = 0;
    /* A call that is served does not take the turn, whether its thread was about to sleep or polls. */
    signals = 0;
    stops_clock = 1;
    for (int polls = 0; polls < 2; polls++) {
        meet(polls ? POLLS : SHORT, first, &second);
        EXPECT(first[0] == 102 && second == 102 && saves == 1);
    }
    /* A call that comes too late for a save makes the next one, whether its thread sleeps or polls, and though the first one does not call. */
    before_take = stops_clock = 0;
    for (int polls = 0; polls < 2; polls++) {
        meet(polls ? POLLS : LONG_SAVE, first, &second);
        EXPECT(first[0] == 101 && second == 201 && saves == 2 && is_by_second);
    }
    /* The thread that has saved saves again if it calls before the other one takes the turn. */
    freezes_clock = 1;
    meet(POLLS, first, &second);
    EXPECT(first[0] == 101 && first[1] == 202 && second == 202 && saves == 2 && !is_by_second);
    puts("c_turns: as expected");
    return 0;
}
