/* Tests threads that save one base at the same time: the number of saves for their calls, the data on the disk when a call returns, faults,
 * order, pages that change meanwhile, signals, cancelled threads and a fork. The first argument is a folder. If there is a second argument,
 * it is the number of changes that each of 64 threads makes, and the program prints the number of saves for these changes. If the argument
 * is greater than 2, two threads must share saves. tests/c_library builds and runs it.
 *
 * This program replaces fdatasync. Each call takes a millisecond and copies its file. The copies are the files that a loss of power would
 * leave. */
#define _GNU_SOURCE
#include "c_group.h"
#include <semaphore.h>
#include <signal.h>
#include <stdlib.h>
#include <sys/file.h>
#include <sys/stat.h>
#include <sys/uio.h>
#include <sys/wait.h>

enum { THREADS = 64, FEW = 8, KEPT = 1 << 21, TEXT = 16 };

atomic_ulong looked;

void rest(void)
{
    const struct timespec millisecond = {0, 1000000};
    nanosleep(&millisecond, NULL);
}

/* ---- a disk */

/* The bytes of a file at its last flush, followed by zeros. */
struct kept {
    const char *ending;
    size_t length, used;
    int is_there;
    uint8_t bytes[KEPT];
};

static struct kept disk[3] = {{.ending = ".pag"}, {.ending = ".dir"}, {.ending = ".redo"}};
static pthread_mutex_t disk_mutex = PTHREAD_MUTEX_INITIALIZER, writing = PTHREAD_MUTEX_INITIALIZER;
atomic_ulong flushes;

/* The saves of the first thread, or of the other threads, stop at their next flush until the test lets them continue. `fails_at` is the
 * number of a flush: of the flushes by the other threads, this one fails. */
static _Thread_local int is_first;
atomic_int stops_first, is_stopped;
static atomic_int stops_others, fails_at;

static void keep(int file, struct kept *kept)
{
    ssize_t length = pread(file, kept->bytes, KEPT, 0);
    EXPECT(length >= 0 && length < KEPT);
    kept->length = kept->used = (size_t)length;
    kept->is_there = 1;
    while (kept->used != 0 && kept->bytes[kept->used - 1] == 0)
        kept->used--;
}

/* Replaces the function of the C library, for Boddurci too. No two threads may write the files at the same time. */
int fdatasync(int file)
{
    char link[64], name[4096];
    atomic_int *stops = is_first ? &stops_first : &stops_others;
    snprintf(link, sizeof link, "/proc/self/fd/%d", file);
    ssize_t length = readlink(link, name, sizeof name - 1);
    EXPECT(length > 0);
    name[length] = 0;
    if (strstr(name, "/left") != NULL)
        return 0;
    EXPECT(pthread_mutex_trylock(&writing) == 0);
    flushes++;
    rest();
    if (*stops) {
        is_stopped = 1;
        AWAIT(!*stops);
        is_stopped = 0;
    }
    int fails = !is_first && fails_at != 0 && atomic_fetch_sub(&fails_at, 1) == 1;
    pthread_mutex_lock(&disk_mutex);
    for (struct kept *kept = disk; kept < disk + 3 && !fails; kept++)
        if (strcmp(name + length - strlen(kept->ending), kept->ending) == 0)
            keep(file, kept);
    pthread_mutex_unlock(&disk_mutex);
    pthread_mutex_unlock(&writing);
    errno = fails ? EIO : errno;
    return fails ? -1 : 0;
}

int fsync(int file)
{
    return fdatasync(file);
}

/* Replaces the function of the C library that reads without waiting for the disk. If `is_uncached` is set, it fails, as if the bytes were
 * only on the disk and not in the page cache. */
static int cached, is_uncached;

ssize_t preadv2(int file, const struct iovec *pieces, int count, off_t at, int flags)
{
    cached++;
    if (!is_uncached)
        return preadv(file, pieces, count, at);
    errno = flags != 0 ? EAGAIN : EINVAL;
    return -1;
}

/* ---- threads that wait */

/* The linker replaces sem_wait and sem_post by these. A call that waits in sem_wait is in the list for the next save. On request, a thread
 * that is not the first stops before its second post. Its first posts wake the calls that its save has served. */
int __real_sem_wait(sem_t *turn);
int __wrap_sem_wait(sem_t *turn);
int __real_sem_post(sem_t *turn);
int __wrap_sem_post(sem_t *turn);

atomic_int waiting;
static atomic_int stops_posts, is_post_stopped;
static _Thread_local int posts;

int __wrap_sem_wait(sem_t *turn)
{
    waiting++;
    int status = __real_sem_wait(turn);
    waiting--;
    return status;
}

int __wrap_sem_post(sem_t *turn)
{
    if (stops_posts && !is_first && ++posts == 2) {
        is_post_stopped = 1;
        AWAIT(!stops_posts);
    }
    return __real_sem_post(turn);
}

/* The linker replaces pwrite by this. On request, a thread that is not the first stops before it writes .pag. */
ssize_t __real_pwrite(int file, const void *bytes, size_t size, off_t at);
ssize_t __wrap_pwrite(int file, const void *bytes, size_t size, off_t at);

atomic_int stops_writes, is_write_stopped;

static int is_pages(int file)
{
    char link[64], name[4096];
    snprintf(link, sizeof link, "/proc/self/fd/%d", file);
    ssize_t length = readlink(link, name, sizeof name - 1);
    return length >= 4 && memcmp(name + length - 4, ".pag", 4) == 0;
}

ssize_t __wrap_pwrite(int file, const void *bytes, size_t size, off_t at)
{
    if (stops_writes && !is_first && is_pages(file)) {
        is_write_stopped = 1;
        AWAIT(!stops_writes);
        is_write_stopped = 0;
    }
    return __real_pwrite(file, bytes, size, at);
}

/* The linker replaces flock by this. On request, a thread that is not the first stops before it takes a lock exclusively. */
int __real_flock(int file, int how);
int __wrap_flock(int file, int how);

static atomic_int stops_locks, is_lock_stopped;

int __wrap_flock(int file, int how)
{
    if (stops_locks && !is_first && (how & LOCK_EX) != 0) {
        is_lock_stopped = 1;
        AWAIT(!stops_locks);
        is_lock_stopped = 0;
    }
    return __real_flock(file, how);
}

/* The linker replaces sched_yield by this. On request, a thread calls a function at its first yield: a save yields while it waits for
 * calls. */
int __real_sched_yield(void);
int __wrap_sched_yield(void);

void (*meanwhile)(void);
static _Thread_local int is_watched;

int __wrap_sched_yield(void)
{
    void (*call)(void) = is_watched ? meanwhile : NULL;
    if (call != NULL) {
        meanwhile = NULL;
        call();
    }
    return __real_sched_yield();
}

/* ---- savers */

void store(boddurci_base *base, int number, int value)
{
    char key[TEXT], text[TEXT];
    int key_length = snprintf(key, sizeof key, "key%d", number), length = snprintf(text, sizeof text, "%d", value);
    EXPECT(boddurci_store(boddurci_take(base), (const uint8_t *)key, (size_t)key_length, (const uint8_t *)text, (size_t)length, 1) == BODDURCI_DONE);
    boddurci_give(base);
}

int value_of(boddurci_base *base, int number)
{
    char key[TEXT];
    uint8_t text[TEXT] = {0};
    size_t length;
    int key_length = snprintf(key, sizeof key, "key%d", number);
    uint32_t status = boddurci_fetch(boddurci_take(base), (const uint8_t *)key, (size_t)key_length, text, sizeof text - 1, &length);
    boddurci_give(base);
    return status == BODDURCI_DONE ? atoi((const char *)text) : -1;
}

/* Opens copies of the files that a loss of power would leave now, for this thread. */
static boddurci_base *left(int number)
{
    char name[64];
    boddurci_fault fault;
    pthread_mutex_lock(&disk_mutex);
    for (const struct kept *kept = disk; kept < disk + 3; kept++) {
        snprintf(name, sizeof name, "left/db%d%s", number, kept->ending);
        EXPECT(unlink(name) == 0 || errno == ENOENT);
        FILE *file = kept->is_there ? fopen(name, "wb") : NULL;
        EXPECT(!kept->is_there || (file != NULL && fwrite(kept->bytes, 1, kept->used, file) == kept->used && fclose(file) == 0));
        EXPECT(!kept->is_there || truncate(name, (off_t)kept->length) == 0);
    }
    pthread_mutex_unlock(&disk_mutex);
    snprintf(name, sizeof name, "left/db%d", number);
    boddurci_base *base = boddurci_open_files(name, BODDURCI_READ_ONLY, &fault);
    EXPECT(base != NULL);
    return base;
}

int left_value(int number)
{
    boddurci_base *base = left(number);
    int value = value_of(base, number);
    boddurci_close_files(base);
    return value;
}

/* The first thread delays its second call until the save of the other threads has begun. A thread can be cancelled only during a save. */
static void *save_each(void *given)
{
    struct saver *saver = given;
    int is_last = saver->number == THREADS - 1, was;
    is_first = saver->is_first;
    is_watched = saver->is_watched;
    pthread_setcancelstate(PTHREAD_CANCEL_DISABLE, &was);
    for (int value = 1; value <= saver->changes; value++) {
        if (is_first && value > 1)
            AWAIT(is_stopped);
        store(saver->base, saver->number, value);
        pthread_setcancelstate(PTHREAD_CANCEL_ENABLE, &was);
        saver->status = boddurci_save_with(saver->base, saver->flags, is_last ? NULL : &saver->fault);
        pthread_setcancelstate(PTHREAD_CANCEL_DISABLE, &was);
        saver->done++;
        EXPECT(was == PTHREAD_CANCEL_ENABLE && (saver->status != BODDURCI_DONE || left_value(saver->number) == value));
    }
    return NULL;
}

void start(struct saver *saver, boddurci_base *base, int number, int is_first, int changes)
{
    struct saver new = {.base = base, .number = number, .is_first = is_first, .changes = changes};
    start_as(saver, new);
}

void start_as(struct saver *saver, struct saver new)
{
    memcpy(saver, &new, sizeof new);
    EXPECT(pthread_create(&saver->thread, NULL, save_each, saver) == 0);
}

void join(struct saver *saver)
{
    void *result;
    EXPECT(pthread_join(saver->thread, &result) == 0 && result == NULL);
}

/* Starts the first saver, whose save stops at a flush. Then starts the other savers, whose calls wait for that save. */
static void start_behind(struct saver *savers, boddurci_base *base, int changes)
{
    stops_first = 1;
    start(&savers[0], base, 0, 1, changes);
    AWAIT(is_stopped);
    for (int i = 1; i <= FEW; i++) {
        start(&savers[i], base, i, 0, 1);
        AWAIT(waiting == i);
    }
}

boddurci_base *opened(const char *name)
{
    boddurci_fault fault;
    for (struct kept *kept = disk; kept < disk + 3; kept++)
        kept->is_there = 0;
    boddurci_base *base = boddurci_open_files(name, 0, &fault);
    EXPECT(base != NULL);
    return base;
}

/* Returns the number of flushes of a save by one thread, after the names of the files were flushed. That save waits for no other call. */
static unsigned long flushes_alone(boddurci_base *base)
{
    unsigned long before;
    for (int value = 1; value <= 3; value++) {
        before = flushes;
        store(base, 0, value);
        EXPECT(boddurci_save(base, NULL) == BODDURCI_DONE && waiting == 0 && left_value(0) == value);
    }
    return flushes - before;
}

/* The calls of 64 threads take far fewer saves, and the change of each call is on the disk when the call returns. */
static void test_many(int changes)
{
    static struct saver savers[THREADS];
    boddurci_base *base = opened("many");
    for (int i = 0; i < THREADS; i++)
        store(base, i, 0);
    unsigned long alone = flushes_alone(base), before = flushes, calls = (unsigned long)(THREADS * changes);
    EXPECT(alone == 1);
    stops_others = 1;
    for (int i = 0; i < THREADS; i++)
        start(&savers[i], base, i, 0, changes);
    AWAIT(waiting == THREADS - 1);
    stops_others = 0;
    for (int i = 0; i < THREADS; i++) {
        join(&savers[i]);
        EXPECT(savers[i].done == changes && savers[i].status == BODDURCI_DONE && savers[i].fault.system == 0);
    }
    unsigned long saves = (flushes - before) / alone;
    EXPECT(saves != 0 && saves <= calls / 2 && waiting == 0);
    printf("%lu calls of %d threads took %lu saves; ", calls, THREADS, saves);
    boddurci_close_files(base);
}

/* Saves repeatedly, and does nothing else. */
enum { PAIR = 100 };

static void *save_only(void *given)
{
    struct saver *saver = given;
    for (int i = 0; i < PAIR && saver->status == BODDURCI_DONE; i++) {
        store(saver->base, saver->number, i);
        saver->status = boddurci_save(saver->base, &saver->fault);
    }
    return NULL;
}

/* Two threads that save repeatedly share most saves: a thread that has the turn waits for the thread that was just served. Without this
 * wait they would save alternately. Under a sanitizer, which makes threads slow, they may do so. */
static void test_pair(int is_quick)
{
    static struct saver savers[2];
    boddurci_base *base = opened("pair");
    for (int i = 0; i < 2; i++)
        store(base, i, PAIR);
    unsigned long alone = flushes_alone(base), before = flushes;
    for (int i = 0; i < 2; i++) {
        savers[i].base = base;
        savers[i].number = i;
        EXPECT(pthread_create(&savers[i].thread, NULL, save_only, &savers[i]) == 0);
    }
    for (int i = 0; i < 2; i++)
        EXPECT(pthread_join(savers[i].thread, NULL) == 0 && savers[i].status == BODDURCI_DONE);
    EXPECT((flushes - before) / alone <= (is_quick ? 2 * PAIR - PAIR / 4 : 2 * PAIR + 1));
    boddurci_close_files(base);
}

/* If the flush of a save fails, only the calls that wait for this save get the fault. Then the disk has no change of these calls, and the
 * next save has all of these changes. */
static void fail_once(struct saver *savers, boddurci_base *base, int value)
{
    start_behind(savers, base, 1);
    fails_at = 1;
    stops_first = 0;
    for (int i = 0; i <= FEW; i++)
        join(&savers[i]);
    const boddurci_fault fault = savers[1].fault;
    EXPECT(savers[0].status == BODDURCI_DONE && savers[0].fault.status == BODDURCI_DONE && savers[0].fault.system == 0);
    EXPECT(fault.status == BODDURCI_FILE_FAILED && fault.system == EIO && fails_at == 0 && strstr(fault.text, "BASE.redo cannot be written") != NULL);
    for (int i = 1; i <= FEW; i++) {
        EXPECT(savers[i].status == fault.status && memcmp(&savers[i].fault, &fault, sizeof fault) == 0);
        EXPECT(left_value(i) == value);
    }
    for (int i = 1; i <= FEW; i++)
        start(&savers[i], base, i, 0, 3);
    for (int i = 1; i <= FEW; i++) {
        join(&savers[i]);
        EXPECT(savers[i].status == BODDURCI_DONE && savers[i].fault.system == 0);
    }
}

static void test_failing(void)
{
    struct saver savers[FEW + 1];
    boddurci_base *base = opened("failing");
    flushes_alone(base);
    for (int count = 0; count < 4; count++)
        fail_once(savers, base, count == 0 ? -1 : 3);
    boddurci_close_files(base);
}

/* The first thread calls again once it is served. The current save serves all calls that have waited, but not this one. */
static void call_again(struct saver *savers, boddurci_base *base)
{
    start_behind(savers, base, 2);
    stops_others = 1;
    stops_first = 0;
    AWAIT(is_stopped && waiting == FEW && savers[0].done == 1);
    for (int i = 1; i <= FEW; i++)
        EXPECT(savers[i].done == 0);
}

/* No thread is served twice while another one waits: the next save of the first thread comes after the other threads are served. */
static void test_order(void)
{
    struct saver savers[FEW + 1];
    boddurci_base *base = opened("order");
    call_again(savers, base);
    stops_first = 1;
    stops_others = 0;
    for (int i = 1; i <= FEW; i++)
        join(&savers[i]);
    AWAIT(is_stopped);
    EXPECT(savers[0].done == 1 && waiting == 0);
    stops_first = 0;
    join(&savers[0]);
    EXPECT(savers[0].done == 2);
    boddurci_close_files(base);
}

/* The order is the same if the thread that saves for the other threads is slow to serve them: the next save begins after it has served
 * them. */
static void test_slow(void)
{
    struct saver savers[FEW + 1];
    boddurci_base *base = opened("slow");
    unsigned long alone = flushes_alone(base);
    call_again(savers, base);
    unsigned long before = flushes;
    stops_posts = 1;
    stops_others = 0;
    AWAIT(is_post_stopped);
    for (int i = 0; i < 100; i++)
        rest();
    EXPECT(savers[0].done == 1 && savers[1].done == 0 && savers[2].done == 1 && flushes - before == alone - 1);
    for (int i = 3; i <= FEW; i++)
        EXPECT(savers[i].done == 0);
    stops_posts = 0;
    for (int i = 0; i <= FEW; i++) {
        join(&savers[i]);
        EXPECT(savers[i].done == (i == 0 ? 2 : 1));
    }
    boddurci_close_files(base);
}

/* The same if the save fails. */
static void test_slow_failing(void)
{
    struct saver savers[FEW + 1];
    boddurci_base *base = opened("slowly");
    flushes_alone(base);
    call_again(savers, base);
    stops_posts = 1;
    fails_at = 1;
    stops_others = 0;
    AWAIT(is_post_stopped);
    for (int i = 0; i < 100; i++)
        rest();
    EXPECT(savers[0].done == 1 && savers[1].done == 0 && savers[2].done == 1 && savers[2].status == BODDURCI_FILE_FAILED);
    stops_posts = 0;
    for (int i = 0; i <= FEW; i++)
        join(&savers[i]);
    EXPECT(savers[0].done == 2 && savers[0].status == BODDURCI_DONE);
    boddurci_close_files(base);
}

/* The calls of a save return once it is committed and readers have to wait, while its thread writes the data files. A call that comes then
 * waits for the next save. */
static void test_early(void)
{
    struct saver savers[FEW + 1];
    boddurci_fault fault;
    boddurci_base *base = opened("early");
    flushes_alone(base);
    start_behind(savers, base, 1);
    stops_locks = stops_writes = 1;
    stops_first = 0;
    AWAIT(is_lock_stopped);
    for (int i = 0; i < 100; i++)
        rest();
    for (int i = 1; i <= FEW; i++)
        EXPECT(savers[i].done == 0);
    stops_locks = 0;
    AWAIT(is_write_stopped);
    EXPECT(boddurci_open_files("early", BODDURCI_READ_ONLY | BODDURCI_NO_WAIT, &fault) == NULL && fault.status == BODDURCI_LOCKED);
    join(&savers[0]);
    for (int i = 2; i <= FEW; i++) {
        join(&savers[i]);
        EXPECT(savers[i].done == 1 && savers[i].status == BODDURCI_DONE && savers[i].fault.status == BODDURCI_DONE && savers[i].fault.system == 0);
    }
    unsigned long before = flushes;
    start(&savers[2], base, 2, 0, 1);
    AWAIT(waiting == 1);
    for (int i = 0; i < 100; i++)
        rest();
    EXPECT(savers[1].done == 0 && savers[2].done == 0 && flushes == before);
    stops_writes = 0;
    for (int i = 1; i <= 2; i++) {
        join(&savers[i]);
        EXPECT(savers[i].done == 1 && savers[i].status == BODDURCI_DONE);
    }
    boddurci_close_files(base);
}

/* The linker replaces pread by this. On request each of the next calls first changes two keys, as other threads may while a save reads. Or
 * reads of .pag stop, or the next ones fail. */
ssize_t __real_pread(int file, void *room, size_t size, off_t at);
ssize_t __wrap_pread(int file, void *room, size_t size, off_t at);

enum { KEYS = 3000 };

static boddurci_base *moving;
static int stores, changing;
atomic_int stops_reads, is_read_stopped, fails_reads;

static int moving_key(int which)
{
    return KEYS / 4 * which;
}

ssize_t __wrap_pread(int file, void *room, size_t size, off_t at)
{
    if (stores > 0) {
        store(moving, moving_key(stores), changing);
        store(moving, moving_key(stores) + 1, changing);
        stores--;
    }
    if (stops_reads && is_pages(file)) {
        is_read_stopped = 1;
        AWAIT(!stops_reads);
        is_read_stopped = 0;
    }
    if (fails_reads > 0 && is_pages(file)) {
        fails_reads--;
        errno = EIO;
        return -1;
    }
    return __real_pread(file, room, size, at);
}

/* A save contains the pages that other threads change while it reads, whether it waits for the disk or not. The only record in the log is
 * that of this save, and fits the files from before it. */
static void test_moving(void)
{
    moving = opened("moving");
    for (int i = 0; i < KEYS; i++)
        store(moving, i, 0);
    EXPECT(boddurci_save(moving, NULL) == BODDURCI_DONE);
    for (changing = 1; changing <= 3; changing++) {
        int times = changing < 3 ? 1 : 2;
        boddurci_close_files(moving);
        moving = boddurci_open_files("moving", 0, NULL);
        unsigned long before = flushes;
        cached = 0;
        is_uncached = changing > 1;
        store(moving, 1, changing);
        stores = times;
        EXPECT(boddurci_save(moving, NULL) == BODDURCI_DONE && stores == 0 && cached != 0 && flushes - before == 1);
        EXPECT(left_value(1) == changing);
        for (int i = 1; i <= times; i++)
            EXPECT(left_value(moving_key(i)) == changing && left_value(moving_key(i) + 1) == changing);
    }
    boddurci_close_files(moving);
}

static atomic_int heard;

static void hear(int number)
{
    (void)number;
    heard++;
}

/* A signal does not end a wait. A cancelled thread first finishes its call. A child does not take part in the saves of its parent. */
static void test_disturbed(void)
{
    struct saver savers[FEW + 1];
    struct sigaction action;
    int status;
    memset(&action, 0, sizeof action);
    action.sa_handler = hear;
    EXPECT(sigaction(SIGUSR1, &action, NULL) == 0);
    boddurci_base *base = opened("disturbed");
    start_behind(savers, base, 1);
    for (int i = 1; i <= FEW; i++)
        EXPECT(pthread_kill(savers[i].thread, SIGUSR1) == 0);
    EXPECT(pthread_cancel(savers[0].thread) == 0 && pthread_cancel(savers[1].thread) == 0 && pthread_cancel(savers[FEW].thread) == 0);
    pid_t child = fork();
    if (child == 0) {
        int is_refused = boddurci_save(base, &savers[0].fault) == BODDURCI_FORKED && boddurci_take(base) == NULL;
        boddurci_close_files(base);
        _exit(is_refused ? kill(getpid(), SIGKILL) : 1); /* no check for leaks: the child lacks the stacks of its parent's threads */
    }
    EXPECT(child > 0 && waitpid(child, &status, 0) == child && WIFSIGNALED(status));
    AWAIT(heard == FEW && waiting == FEW);
    for (int i = 0; i <= FEW; i++)
        EXPECT(savers[i].done == 0);
    stops_first = 0;
    for (int i = 0; i <= FEW; i++) {
        join(&savers[i]);
        EXPECT(savers[i].done == 1 && savers[i].status == BODDURCI_DONE);
    }
    store(base, 1, 5);
    EXPECT(boddurci_save(base, NULL) == BODDURCI_DONE && left_value(1) == 5);
    boddurci_close_files(base);
}

int main(int argc, char **argv)
{
    if (argc != 3 || chdir(argv[1]) != 0 || mkdir("left", 0777) != 0)
        return 2;
    alarm(300);
    test_many(atoi(argv[2]));
    test_pair(atoi(argv[2]) > 2);
    test_failing();
    test_order();
    test_slow();
    test_slow_failing();
    test_early();
    test_moving();
#ifdef BODDURCI_LONG_SAVE
    test_joins();
#endif
    test_disturbed();
    printf("%lu answers as expected\n", looked);
    return 0;
}
