/* Uses bases in processes that are unusual, for tests/processes. Each command prints `ok`. The status is 77 if the system does not allow
 * the test.
 *
 *     c_processes streams BASE             the standard streams are closed before a base is opened, or while it is open
 *     c_processes root BASE FOLDER         a shared base in a process whose root is a folder without /proc
 *     c_processes early BASE FILE          FILE gets the name of a lock that was made before .pag
 *     c_processes cancel BASE              threads that use bases are cancelled
 *     c_processes orphans BASE             a process that has a base open is killed, and its child lives
 *     c_processes crowd BASE               another process has thousands of locks on another file
 *     c_processes same BASE FOLDER OTHER   another process locks a file with the inode of BASE.writer on another file system
 *     c_processes clock BASE               the clock of the day is set back during a wait */
#define _GNU_SOURCE
#include "boddurci_files.h"
#include <fcntl.h>
#include <pthread.h>
#include <sched.h>
#include <signal.h>
#include <stdio.h>
#include <stdlib.h>
#include <string.h>
#include <sys/file.h>
#include <sys/mount.h>
#include <sys/prctl.h>
#include <sys/stat.h>
#include <sys/syscall.h>
#include <sys/wait.h>
#include <time.h>
#include <unistd.h>

enum { SKIPPED = 77 };
static boddurci_fault fault;
static const uint8_t *const KEY = (const uint8_t *)"a";

#define EXPECT(what)                                                                                                               \
    do {                                                                                                                           \
        if (!(what)) {                                                                                                             \
            dprintf(report, "c_processes.c:%d: not so: %s (%s)\n", __LINE__, #what, fault.text);                                      \
            _exit(1);                                                                                                              \
        }                                                                                                                          \
    } while (0)
static int report = STDERR_FILENO;

/* ---- bases and processes */

static void save(boddurci_base *base, const char *value)
{
    EXPECT(boddurci_store(boddurci_take(base), KEY, 1, (const uint8_t *)value, strlen(value), 1) == BODDURCI_DONE);
    boddurci_give(base);
    EXPECT(boddurci_save(base, &fault) == BODDURCI_DONE && fault.system == 0);
}

static uint32_t store(boddurci_shared *shared, const char *value)
{
    return boddurci_shared_store(shared, KEY, 1, (const uint8_t *)value, strlen(value), 1, &fault);
}

/* Returns whether a reader finds this value. */
static int has(const char *name, const char *value)
{
    uint8_t found[20];
    size_t length = 0;
    boddurci_base *base = boddurci_open_files(name, BODDURCI_READ_ONLY, &fault);
    uint32_t status = boddurci_fetch(boddurci_take(base), KEY, 1, found, sizeof found, &length);
    boddurci_give(base);
    boddurci_close_files(base);
    return status == BODDURCI_DONE && length == strlen(value) && memcmp(found, value, length) == 0;
}

static void rest(long milliseconds)
{
    nanosleep(&(struct timespec){milliseconds / 1000, milliseconds % 1000 * 1000000}, NULL);
}

static double seconds(void)
{
    struct timespec time;
    clock_gettime(CLOCK_MONOTONIC, &time);
    return (double)time.tv_sec + 1e-9 * (double)time.tv_nsec;
}

static int taken(const char *base, const char *ending, int how)
{
    char name[200];
    snprintf(name, sizeof name, "%s%s", base, ending);
    int lock = open(name, O_RDWR);
    EXPECT(lock >= 0 && flock(lock, how) == 0);
    return lock;
}

/* Waits for a child, and returns its status. */
static int status_of(pid_t child)
{
    int status;
    EXPECT(waitpid(child, &status, 0) == child);
    return WIFEXITED(status) ? WEXITSTATUS(status) : -1;
}

static void end(pid_t child)
{
    kill(child, SIGKILL);
    EXPECT(status_of(child) == -1);
}

/* Lets a child tell its parent that it has begun. */
static int ends[2];

/* Forks a child that ends with its parent. */
static pid_t forked(void)
{
    EXPECT(pipe(ends) == 0);
    pid_t child = fork();
    if (child == 0)
        prctl(PR_SET_PDEATHSIG, SIGKILL);
    return child;
}

static void wait_for_kill(void)
{
    EXPECT(write(ends[1], "r", 1) == 1);
    for (;;)
        pause();
}

static void await(void)
{
    char byte;
    EXPECT(read(ends[0], &byte, 1) == 1);
    close(ends[0]);
    close(ends[1]);
}

/* ---- standard streams */

static void close_streams(void)
{
    for (int stream = 0; stream < 3; stream++)
        close(stream);
}

/* Writes a line to each standard stream, which must be closed. */
static void write_lines(void)
{
    for (int stream = 0; stream < 3; stream++)
        EXPECT(write(stream, "a line\n", 7) < 0);
}

static void use_base(const char *name, int is_open_before)
{
    boddurci_base *base = is_open_before ? boddurci_open_files(name, 0, &fault) : NULL;
    close_streams();
    if (base == NULL)
        base = boddurci_open_files(name, 0, &fault);
    EXPECT(base != NULL);
    save(base, "one");
    write_lines();
    save(base, "two");
    boddurci_close_files(base);
}

static void use_shared(const char *name, int is_open_before)
{
    boddurci_shared *shared = is_open_before ? boddurci_open_shared(name, 0, &fault) : NULL;
    close_streams();
    if (shared == NULL)
        shared = boddurci_open_shared(name, 0, &fault);
    EXPECT(shared != NULL && store(shared, "one") == BODDURCI_DONE);
    write_lines();
    EXPECT(store(shared, "two") == BODDURCI_DONE);
    write_lines();
    boddurci_close_shared(shared);
}

static int streams(const char *name)
{
    report = fcntl(STDERR_FILENO, F_DUPFD, 100);
    for (int way = 0; way < 4; way++) {
        pid_t child = fork();
        if (child == 0) {
            if (way < 2)
                use_base(name, way % 2);
            else
                use_shared(name, way % 2);
            _exit(0);
        }
        EXPECT(status_of(child) == 0 && has(name, "two"));
    }
    return 0;
}

/* ---- another root */

static int may_change_root(const char *folder)
{
    return (chroot(folder) == 0 || (unshare(CLONE_NEWUSER) == 0 && chroot(folder) == 0)) && chdir("/") == 0;
}

/* The deletion of the last pair needs the whole database. */
static int root(const char *name, const char *folder)
{
    char pages[200];
    snprintf(pages, sizeof pages, "%s.pag", name);
    boddurci_shared *shared = boddurci_open_shared(name, 0, &fault);
    EXPECT(shared != NULL && store(shared, "one") == BODDURCI_DONE);
    pid_t child = fork();
    if (child == 0) {
        if (!may_change_root(folder))
            _exit(SKIPPED);
        EXPECT(boddurci_shared_delete(shared, KEY, 1, &fault) == BODDURCI_DONE && store(shared, "two") == BODDURCI_DONE);
        EXPECT(access(pages, F_OK) != 0);
        _exit(0);
    }
    int status = status_of(child);
    EXPECT(status == SKIPPED || (status == 0 && has(name, "two")));
    boddurci_close_shared(shared);
    return status;
}

/* ---- a lock that was made before .pag */

static int early(const char *name, const char *file)
{
    char lock[200];
    snprintf(lock, sizeof lock, "%s.lock", name);
    boddurci_shared *shared = boddurci_open_shared(name, 0, &fault);
    EXPECT(shared != NULL && boddurci_shared_delete(shared, KEY, 1, &fault) == BODDURCI_MISSING);
    EXPECT(rename(file, lock) == 0);
    (void)!store(shared, "one");
    boddurci_close_shared(shared);
    return 0;
}

/* ---- cancelled threads */

static void *use_bases(void *name)
{
    boddurci_fault own;
    for (;;) {
        boddurci_base *base = boddurci_open_files_within(name, 0, 2000, &own);
        boddurci_close_files(base);
        boddurci_shared *shared = boddurci_open_shared(name, 0, &own);
        (void)!boddurci_shared_store(shared, KEY, 1, KEY, 1, 1, &own);
        boddurci_close_shared(shared);
        base = boddurci_open_files(name, BODDURCI_READ_ONLY, &own);
        boddurci_close_files(base);
        pthread_testcancel();
    }
    return NULL;
}

static int cancel(char *name)
{
    enum { TIMES = 100 };
    for (int times = 0; times < TIMES; times++) {
        pthread_t thread;
        EXPECT(pthread_create(&thread, NULL, use_bases, name) == 0);
        nanosleep(&(struct timespec){0, times * 37 % 100 * 20000}, NULL);
        EXPECT(pthread_cancel(thread) == 0 && pthread_join(thread, NULL) == 0);
    }
    pid_t child = fork();
    if (child == 0) {
        boddurci_base *base = boddurci_open_files_within(name, 0, 1000, &fault);
        EXPECT(base != NULL);
        boddurci_close_files(base);
        _exit(0);
    }
    return status_of(child);
}

/* ---- children of a killed process */

static void *wait_to_open(void *name)
{
    boddurci_fault own;
    return boddurci_open_files(name, 0, &own);
}

/* Has a base open, or waits in a thread for the lock on it, and then forks. The number of the child is written to the pipe. */
static void have_child(char *name, int waits)
{
    pthread_t thread;
    boddurci_base *base = waits ? NULL : boddurci_open_files(name, 0, &fault);
    EXPECT(waits ? pthread_create(&thread, NULL, wait_to_open, name) == 0 : base != NULL);
    rest(waits ? 50 : 0);
    pid_t child = fork();
    while (child == 0)
        pause();
    EXPECT(write(ends[1], &child, sizeof child) == sizeof child);
    for (;;)
        pause();
}

static int orphans(char *name)
{
    pid_t child;
    for (int waits = 0; waits < 2; waits++) {
        int lock = waits ? taken(name, ".lock", LOCK_EX) : -1;
        pid_t parent = forked();
        if (parent == 0) {
            if (waits)
                close(lock);
            have_child(name, waits);
        }
        EXPECT(read(ends[0], &child, sizeof child) == sizeof child);
        if (waits)
            close(lock);
        rest(waits ? 50 : 0);
        end(parent);
        boddurci_base *base = boddurci_open_files_within(name, 0, 1000, &fault);
        EXPECT(kill(child, SIGKILL) == 0 && base != NULL);
        boddurci_close_files(base);
    }
    return 0;
}

/* ---- many locks */

/* Returns the number of bytes that this process has read, or -1. */
static long bytes_read(void)
{
    long bytes = -1;
    FILE *file = fopen("/proc/self/io", "re");
    if (file != NULL && fscanf(file, "rchar: %ld", &bytes) != 1)
        bytes = -1;
    if (file != NULL)
        fclose(file);
    return bytes;
}

static void lock_many_bytes(void)
{
    enum { LOCKS = 3000 };
    FILE *file = tmpfile();
    EXPECT(file != NULL);
    for (int i = 0; i < LOCKS; i++) {
        struct flock byte = {.l_type = F_WRLCK, .l_whence = SEEK_SET, .l_start = 2 * i, .l_len = 1};
        EXPECT(fcntl(fileno(file), F_SETLK, &byte) == 0);
    }
    wait_for_kill();
}

static void *save_two(void *base)
{
    boddurci_fault own;
    (void)!boddurci_store(boddurci_take(base), KEY, 1, (const uint8_t *)"two", 3, 1);
    boddurci_give(base);
    (void)!boddurci_save(base, &own);
    return NULL;
}

/* Beside these locks a reader reads little of /proc/locks, and still lets a waiting save go first, for 40 milliseconds. */
static int crowd(const char *name)
{
    enum { MOST = 100000 };
    pthread_t thread;
    boddurci_base *base = boddurci_open_files(name, 0, &fault);
    EXPECT(base != NULL);
    save(base, "one");
    pid_t child = forked();
    if (child == 0)
        lock_many_bytes();
    await();
    int lock = taken(name, ".lock", LOCK_SH);
    EXPECT(pthread_create(&thread, NULL, save_two, base) == 0);
    while (!has(name, "two"))
        rest(1);
    rest(100);
    double start = seconds();
    EXPECT(has(name, "two") && seconds() - start > 0.03);
    close(lock);
    EXPECT(pthread_join(thread, NULL) == 0);
    boddurci_close_files(base);
    long before = bytes_read();
    EXPECT(has(name, "two") && (before < 0 || bytes_read() - before < MOST));
    end(child);
    return before < 0 ? SKIPPED : 0;
}

/* ---- files with one inode */

/* Makes a file with this inode in a folder, locks it, and waits. */
static void lock_inode(const char *folder, ino_t number)
{
    enum { MOST = 1000 };
    char name[200];
    struct stat found = {.st_ino = 0};
    int file = -1;
    for (int i = 0; i < MOST && found.st_ino != number; i++) {
        snprintf(name, sizeof name, "%s/%d", folder, i);
        close(file);
        file = open(name, O_RDWR | O_CREAT, 0600);
        EXPECT(file >= 0 && fstat(file, &found) == 0);
    }
    if (found.st_ino != number)
        _exit(SKIPPED);
    EXPECT(flock(file, LOCK_EX) == 0);
    wait_for_kill();
}

static int may_mount(const char *folder)
{
    return mount("none", folder, "tmpfs", 0, NULL) == 0;
}

/* All locks are taken by one processor, so that /proc/locks shows the latest first. */
static int same(const char *name, const char *folder, const char *other)
{
    char writer[200], wanted[40];
    struct stat found;
    cpu_set_t first;
    CPU_ZERO(&first);
    CPU_SET(0, &first);
    if (unshare(CLONE_NEWNS) != 0 || mount("none", "/", NULL, MS_REC | MS_PRIVATE, NULL) != 0 || !may_mount(folder) || !may_mount(other))
        return SKIPPED;
    if (sched_setaffinity(0, sizeof first, &first) != 0)
        return SKIPPED;
    pid_t holder = forked();
    if (holder == 0) {
        EXPECT(boddurci_open_files(name, 0, &fault) != NULL);
        wait_for_kill();
    }
    await();
    snprintf(writer, sizeof writer, "%s.writer", name);
    EXPECT(stat(writer, &found) == 0);
    pid_t innocent = forked();
    if (innocent == 0)
        lock_inode(other, found.st_ino);
    close(ends[1]);
    char byte;
    int is_begun = read(ends[0], &byte, 1) == 1;
    if (is_begun) {
        snprintf(wanted, sizeof wanted, "process %ld ", (long)holder);
        EXPECT(boddurci_open_files_within(name, 0, 50, &fault) == NULL && strstr(fault.text, wanted) != NULL);
        end(innocent);
    }
    end(holder);
    return is_begun ? 0 : SKIPPED;
}

/* ---- the clock of the day */

static int is_set_back;

/* Replaces the function of the C library, for Boddurci too. The time of the day that it returns is an hour ahead: so the clock seems to be set
 * back after each look. */
int clock_gettime(clockid_t clock, struct timespec *time)
{
    int status = (int)syscall(SYS_clock_gettime, clock, time);
    time->tv_sec += is_set_back && clock == CLOCK_REALTIME ? 3600 : 0;
    return status;
}

static void *store_in_thread(void *shared)
{
    boddurci_fault own;
    (void)!boddurci_shared_store(shared, KEY, 1, KEY, 1, 1, &own);
    return NULL;
}

static int clock_of_day(const char *name)
{
    pthread_t thread;
    boddurci_shared *shared = boddurci_open_shared(name, 0, &fault);
    EXPECT(shared != NULL && store(shared, "one") == BODDURCI_DONE);
    is_set_back = 1;
    int lock = taken(name, ".lock", LOCK_EX);
    EXPECT(boddurci_shared_wait(shared, -1) == BODDURCI_DONE && pthread_create(&thread, NULL, store_in_thread, shared) == 0);
    rest(50);
    EXPECT(boddurci_shared_wait(shared, 100) == BODDURCI_DONE);
    double start = seconds();
    alarm(10);
    EXPECT(store(shared, "two") == BODDURCI_LOCKED && seconds() - start > 0.09);
    close(lock);
    EXPECT(pthread_join(thread, NULL) == 0);
    boddurci_close_shared(shared);
    return 0;
}

/* ---- commands */

static int run(int count, char **words)
{
    const char *command = words[1];
    if (count == 3 && strcmp(command, "streams") == 0)
        return streams(words[2]);
    if (count == 3 && strcmp(command, "cancel") == 0)
        return cancel(words[2]);
    if (count == 3 && strcmp(command, "orphans") == 0)
        return orphans(words[2]);
    if (count == 3 && strcmp(command, "crowd") == 0)
        return crowd(words[2]);
    if (count == 3 && strcmp(command, "clock") == 0)
        return clock_of_day(words[2]);
    if (count == 4 && strcmp(command, "root") == 0)
        return root(words[2], words[3]);
    if (count == 4 && strcmp(command, "early") == 0)
        return early(words[2], words[3]);
    return count == 5 && strcmp(command, "same") == 0 ? same(words[2], words[3], words[4]) : 2;
}

int main(int count, char **words)
{
    alarm(100);
    int status = count > 1 ? run(count, words) : 2;
    if (status == 0)
        puts("ok");
    return status;
}
