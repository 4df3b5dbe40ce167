/* Tests readers while a process has a base open for writing: the data that they find, their waits, and the locks. tests/c_library builds
 * and runs it. The first argument is a folder. If there is a second argument, a number of seconds, a reader reads in a loop for that time
 * next to a service that saves without a pause, and the program prints figures. A third argument is the pause of that reader after each
 * reading, in microseconds. */
#define _GNU_SOURCE
#include "boddurci_files.h"
#include <errno.h>
#include <fcntl.h>
#include <pthread.h>
#include <signal.h>
#include <stdatomic.h>
#include <stdio.h>
#include <stdlib.h>
#include <string.h>
#include <sys/file.h>
#include <sys/mman.h>
#include <sys/stat.h>
#include <sys/wait.h>
#include <time.h>
#include <unistd.h>

static boddurci_fault fault;
static unsigned long looked;

#define EXPECT(what)                                                                                                               \
    do {                                                                                                                           \
        looked++;                                                                                                                  \
        if (!(what)) {                                                                                                             \
            fprintf(stderr, "c_readers.c:%d: not so: %s (%s)\n", __LINE__, #what, fault.text);                                     \
            exit(1);                                                                                                               \
        }                                                                                                                          \
    } while (0)

/* ---- bases */

static boddurci_base *opened(const char *name, uint32_t flags)
{
    boddurci_base *base = boddurci_open_files(name, flags, &fault);
    EXPECT(base != NULL && fault.status == BODDURCI_DONE);
    return base;
}

static int fails(const char *name, uint32_t flags, uint32_t status)
{
    boddurci_base *base = boddurci_open_files(name, flags, &fault);
    boddurci_close_files(base);
    return base == NULL && fault.status == status && fault.text[0] != 0;
}

static void store(boddurci_base *base, const char *key, const void *value, size_t length)
{
    EXPECT(boddurci_store(boddurci_take(base), (const uint8_t *)key, strlen(key), value, length, 1) == BODDURCI_DONE);
    boddurci_give(base);
}

/* Returns the number at a key, or -1 if the key is missing. */
static long number_on(boddurci_base *base, const char *key)
{
    long number = -1;
    size_t length;
    uint32_t status = boddurci_fetch(boddurci_take(base), (const uint8_t *)key, strlen(key), (uint8_t *)&number, sizeof number, &length);
    boddurci_give(base);
    return status == BODDURCI_DONE && length == sizeof number ? number : -1;
}

/* Returns the number that a reader finds without waiting. */
static long found(const char *name)
{
    boddurci_base *reader = opened(name, BODDURCI_READ_ONLY | BODDURCI_NO_WAIT);
    long number = number_on(reader, "a");
    boddurci_close_files(reader);
    return number;
}

static void save(boddurci_base *base, long number)
{
    store(base, "a", &number, sizeof number);
    EXPECT(boddurci_save(base, &fault) == BODDURCI_DONE && fault.system == 0);
}

static int is_marked(const char *name)
{
    FILE *file = fopen(name, "rb");
    int first = file != NULL ? fgetc(file) : 0;
    if (file != NULL)
        fclose(file);
    return first == 1;
}

/* Returns whether the lock on a lock file is free now. */
static int is_free(const char *name)
{
    int lock = open(name, O_RDWR), is_free = lock >= 0 && flock(lock, LOCK_EX | LOCK_NB) == 0;
    if (lock >= 0)
        close(lock);
    return is_free;
}

/* ---- a service in a separate process */

struct service {
    pid_t process;
    int orders, answers;
};

/* Opens a base, and saves the number in each order at the key `a`, until there are no more orders. The order -1 kills the process. */
static void serve(const char *name, int orders, int answers)
{
    long order;
    boddurci_base *base = opened(name, 0);
    EXPECT(write(answers, "o", 1) == 1);
    while (read(orders, &order, sizeof order) == sizeof order) {
        if (order == -1)
            kill(getpid(), SIGKILL);
        store(base, "a", &order, sizeof order);
        char answer = boddurci_save(base, &fault) == BODDURCI_DONE ? 's' : 'f';
        EXPECT(write(answers, &answer, 1) == 1);
    }
    boddurci_close_files(base);
    EXPECT(write(answers, "c", 1) == 1);
    _exit(0);
}

static char answer_of(const struct service *service)
{
    char answer = 0;
    return read(service->answers, &answer, 1) == 1 ? answer : 0;
}

static struct service started(const char *name)
{
    int orders[2], answers[2];
    EXPECT(pipe(orders) == 0 && pipe(answers) == 0);
    struct service service = {fork(), orders[1], answers[0]};
    EXPECT(service.process >= 0);
    if (service.process == 0) {
        close(orders[1]);
        serve(name, orders[0], answers[1]);
    }
    close(orders[0]);
    close(answers[1]);
    EXPECT(answer_of(&service) == 'o');
    return service;
}

static char order(const struct service *service, long number)
{
    EXPECT(write(service->orders, &number, sizeof number) == sizeof number);
    return answer_of(service);
}

/* Ends the orders, and waits until the service has closed its base or was killed. */
static void ended(struct service *service, int was_killed)
{
    int status;
    close(service->orders);
    EXPECT(waitpid(service->process, &status, 0) == service->process);
    EXPECT(was_killed ? WIFSIGNALED(status) : WIFEXITED(status) && WEXITSTATUS(status) == 0);
    close(service->answers);
}

/* Readers see each save of a service immediately. Other writers are refused. */
static void test_service(void)
{
    char text[100];
    boddurci_base *base = opened("served", 0);
    save(base, 1);
    boddurci_close_files(base);
    struct service service = started("served");
    EXPECT(found("served") == 1 && is_free("served.lock") && !is_free("served.writer") && is_marked("served.redo"));
    for (long number = 2; number < 20; number++)
        EXPECT(order(&service, number) == 's' && found("served") == number);
    snprintf(text, sizeof text, "process %ld (", (long)service.process);
    EXPECT(fails("served", BODDURCI_NO_WAIT, BODDURCI_LOCKED));
    EXPECT(access("/proc/locks", R_OK) != 0 || strncmp(fault.text, text, strlen(text)) == 0);
    EXPECT(strstr(fault.text, "has the database open to be written") != NULL);
    EXPECT(boddurci_open_files_within("served", 0, 50, &fault) == NULL && fault.status == BODDURCI_LOCKED);
    EXPECT(order(&service, 20) == 's' && found("served") == 20);
    ended(&service, 0);
    EXPECT(!is_marked("served.redo") && is_free("served.writer") && found("served") == 20);
}

/* A killed service leaves its saves, and no locks. */
static void test_killed(void)
{
    struct service service = started("served");
    EXPECT(order(&service, 30) == 's' && order(&service, -1) == 0);
    ended(&service, 1);
    EXPECT(is_marked("served.redo") && is_free("served.writer") && found("served") == 30 && is_marked("served.redo"));
    boddurci_base *base = opened("served", BODDURCI_NO_WAIT);
    EXPECT(number_on(base, "a") == 30 && found("served") == 30);
    boddurci_close_files(base);
}

/* While a service runs, a reader that has no redo file sees the last save too, since the saves are in the data files. */
static void test_redo(void)
{
    struct service service = started("served");
    EXPECT(order(&service, 31) == 's' && rename("served.redo", "away") == 0 && mkdir("served.redo", 0777) == 0 && found("served") == 31);
    EXPECT(rmdir("served.redo") == 0 && rename("away", "served.redo") == 0 && order(&service, 32) == 's' && found("served") == 32);
    ended(&service, 0);
}

/* After a failed save, readers wait until a later save succeeds. */
static void test_failed(void)
{
    struct service service = started("served");
    EXPECT(order(&service, 40) == 's' && rename("served.redo", "away") == 0 && mkdir("served.redo", 0777) == 0);
    EXPECT(order(&service, 41) == 'f' && fails("served", BODDURCI_READ_ONLY | BODDURCI_NO_WAIT, BODDURCI_LOCKED));
    EXPECT(rmdir("served.redo") == 0 && order(&service, 42) == 's' && found("served") == 42 && unlink("away") == 0);
    ended(&service, 0);
}

/* A new database belongs to its writer alone until the first save. A reader with MUST_EXIST waits until then. */
static void test_new(void)
{
    struct service service = started("new");
    EXPECT(fails("new", BODDURCI_READ_ONLY | BODDURCI_NO_WAIT, BODDURCI_LOCKED) && strstr(fault.text, "uses the files") != NULL);
    EXPECT(access("new.redo", F_OK) != 0 && order(&service, 1) == 's' && found("new") == 1 && is_marked("new.redo"));
    ended(&service, 0);
}

/* A save that shortens a file empties the log, which then gets its mark again. */
static void test_shorter(void)
{
    static uint8_t large[700];
    boddurci_base *base = opened("shorter", 0);
    for (char key[2] = "b"; key[0] < 'z'; key[0]++)
        store(base, key, large, sizeof large);
    save(base, 1);
    for (char key[2] = "b"; key[0] < 'z'; key[0]++) {
        EXPECT(boddurci_delete(boddurci_take(base), (const uint8_t *)key, 1) == BODDURCI_DONE);
        boddurci_give(base);
        save(base, key[0]);
        EXPECT(is_marked("shorter.redo") && found("shorter") == key[0]);
    }
    boddurci_close_files(base);
    EXPECT(!is_marked("shorter.redo"));
}

/* ---- writers that take turns, and are killed */

/* Shared by writers and readers: the last number that is certainly saved, and whether the readers must end. */
struct counted {
    atomic_long saved;
    atomic_int is_over;
};

static struct counted *counted;

/* Adds 1 to the numbers at two keys, which are equal. The lengths of the files change too. */
static void count_up(boddurci_base *base)
{
    static uint8_t filler[700];
    char key[16];
    long number = number_on(base, "a") + 1;
    EXPECT(number_on(base, "b") + 1 == number);
    store(base, "a", &number, sizeof number);
    store(base, "b", &number, sizeof number);
    snprintf(key, sizeof key, "f%ld", number % 7);
    if (number / 7 % 2 == 0)
        store(base, key, filler, sizeof filler);
    else {
        boddurci_delete(boddurci_take(base), (const uint8_t *)key, strlen(key));
        boddurci_give(base);
    }
    EXPECT(boddurci_save(base, &fault) == BODDURCI_DONE);
    counted->saved = number;
}

/* Reads repeatedly. Both numbers must be from one save, which must not be older than the last save before the reading. */
static void read_until_over(void)
{
    while (!counted->is_over) {
        long least = counted->saved;
        boddurci_base *reader = opened("counted", BODDURCI_READ_ONLY);
        long number = number_on(reader, "a");
        EXPECT(number >= least && number == number_on(reader, "b"));
        boddurci_close_files(reader);
    }
    _exit(0);
}

static pid_t forked(void (*child)(void))
{
    fflush(NULL);
    pid_t process = fork();
    EXPECT(process >= 0);
    if (process == 0)
        child();
    return process;
}

enum { WRITERS = 4, TURNS_EACH = 10, KILLS = 60 };

/* Opens the base for each turn. Makes one save in a turn and two saves in the next, alternately. */
static void take_turns(void)
{
    for (int turn = 0; turn < TURNS_EACH; turn++) {
        boddurci_base *base = opened("counted", 0);
        count_up(base);
        if (turn % 2)
            count_up(base);
        boddurci_close_files(base);
    }
    _exit(0);
}

static void count_for_ever(void)
{
    for (;;) {
        boddurci_base *base = opened("counted", 0);
        for (int i = 0; i < 5; i++)
            count_up(base);
        boddurci_close_files(base);
    }
}

static int ended_well(pid_t process)
{
    int status;
    return waitpid(process, &status, 0) == process && WIFEXITED(status) && WEXITSTATUS(status) == 0;
}

/* No save of a writer is lost, and readers never see half of a save, even if writers are killed at any time. */
static void test_turns(void)
{
    long none = 0;
    pid_t writers[WRITERS], reader;
    counted = mmap(NULL, sizeof *counted, PROT_READ | PROT_WRITE, MAP_SHARED | MAP_ANONYMOUS, -1, 0);
    EXPECT(counted != MAP_FAILED);
    boddurci_base *base = opened("counted", 0);
    store(base, "b", &none, sizeof none);
    save(base, 0);
    boddurci_close_files(base);
    reader = forked(read_until_over);
    for (int i = 0; i < WRITERS; i++)
        writers[i] = forked(take_turns);
    for (int i = 0; i < WRITERS; i++)
        EXPECT(ended_well(writers[i]));
    EXPECT(found("counted") == WRITERS * TURNS_EACH * 3 / 2 && counted->saved == WRITERS * TURNS_EACH * 3 / 2);
    srand(7);
    for (int i = 0; i < KILLS; i++) {
        int status;
        pid_t writer = forked(count_for_ever);
        usleep((useconds_t)(rand() % 8000));
        EXPECT(kill(writer, SIGKILL) == 0 && waitpid(writer, &status, 0) == writer && WIFSIGNALED(status));
        EXPECT(found("counted") >= counted->saved);
    }
    counted->is_over = 1;
    EXPECT(ended_well(reader));
    munmap(counted, sizeof *counted);
}

/* ---- a save that is interrupted in the data files */

/* Replaces the function of the C library, for Boddurci too. On request the second call on .pag kills the process. */
static int writes_until_kill;

ssize_t pwrite(int file, const void *bytes, size_t count, off_t at)
{
    char link[64], name[4096];
    snprintf(link, sizeof link, "/proc/self/fd/%d", file);
    ssize_t length = writes_until_kill == 0 ? 0 : readlink(link, name, sizeof name);
    if (length > 4 && memcmp(name + length - 4, ".pag", 4) == 0 && --writes_until_kill == 0)
        kill(getpid(), SIGKILL);
    return pwrite64(file, bytes, count, at);
}

/* Makes the system slow between the two locks of a base when it closes the files of this process. The folder of the base and its first lock
 * get low descriptors, files that are slow to close get higher ones, and the second lock gets the highest. */
static void separate_locks(void)
{
    int low[2] = {dup(0), dup(0)};
    for (int i = 0; i < 4; i++) {
        int slow = memfd_create("slow", MFD_CLOEXEC);
        EXPECT(slow > low[1] && ftruncate(slow, 4 << 20) == 0 && posix_fallocate(slow, 0, 4 << 20) == 0);
    }
    EXPECT(close(low[0]) == 0 && close(low[1]) == 0);
}

/* Saves one number at two keys on different pages, and is killed between the two writes. */
static void save_half(const char *name)
{
    separate_locks();
    boddurci_base *base = opened(name, 0);
    long number = number_on(base, "a") + 1;
    store(base, "a", &number, sizeof number);
    store(base, "b", &number, sizeof number);
    writes_until_kill = 2;
    (void)!boddurci_save(base, &fault);
    _exit(0);
}

/* A process that gets BASE.lock while the writer is being killed must not see half of the save. In this case BASE.writer does not show
 * whether the files are complete, since the system may release the two locks in any order. */
static void test_half(void)
{
    enum { TIMES = 60 };
    static uint8_t filler[450];
    char key[8];
    long none = 0;
    boddurci_base *base = opened("half", 0);
    for (int i = 0; i < 20; i++) {
        snprintf(key, sizeof key, "k%d", i);
        store(base, key, filler, sizeof filler);
    }
    store(base, "b", &none, sizeof none);
    save(base, 0);
    boddurci_close_files(base);
    for (int i = 1; i <= TIMES; i++) {
        int status;
        pid_t writer = fork();
        if (writer == 0)
            save_half("half");
        /* The service saves as soon as it has opened the base. A reader that does not sleep reads before all locks are released. */
        for (long number = 0; number != i;) {
            boddurci_base *reader = boddurci_open_files("half", BODDURCI_READ_ONLY | BODDURCI_NO_WAIT, &fault);
            EXPECT(reader != NULL || fault.status == BODDURCI_LOCKED);
            if (reader == NULL)
                continue;
            number = number_on(reader, "a");
            EXPECT(number_on(reader, "b") == number);
            boddurci_close_files(reader);
        }
        EXPECT(waitpid(writer, &status, 0) == writer && WIFSIGNALED(status) && found("half") == i);
    }
}

/* ---- the same process */

static void *read_here(void *name)
{
    return (void *)(intptr_t)found(name);
}

/* A thread can read while it has the base open for writing, and so can other threads. The base cannot be opened twice for writing. */
static void test_here(void)
{
    void *number;
    pthread_t thread;
    boddurci_base *base = opened("here", 0);
    EXPECT(fails("here", BODDURCI_READ_ONLY, BODDURCI_OPEN_HERE) && fails("here", 0, BODDURCI_OPEN_HERE));
    for (long value = 1; value < 4; value++) {
        save(base, value);
        EXPECT(found("here") == value && fails("here", 0, BODDURCI_OPEN_HERE));
        EXPECT(pthread_create(&thread, NULL, read_here, "here") == 0 && pthread_join(thread, &number) == 0 && (intptr_t)number == value);
    }
    boddurci_close_files(base);
}

/* A child reads the last save while its parent has the base open, and the parent keeps the locks. */
static void test_forked(void)
{
    int status;
    boddurci_base *base = opened("here", 0);
    save(base, 7);
    pid_t child = fork();
    if (child == 0) {
        boddurci_close_files(base);
        _exit(found("here") == 7 && fails("here", BODDURCI_NO_WAIT, BODDURCI_LOCKED) ? 0 : 1);
    }
    EXPECT(child > 0 && waitpid(child, &status, 0) == child && WIFEXITED(status) && WEXITSTATUS(status) == 0);
    EXPECT(is_free("here.lock") && !is_free("here.writer"));
    save(base, 8);
    child = fork();
    if (child == 0) {
        pause();
        _exit(0);
    }
    boddurci_close_files(base);
    EXPECT(child > 0 && is_free("here.writer") && is_free("here.lock") && kill(child, SIGKILL) == 0 && waitpid(child, &status, 0) == child);
}

/* ---- the files of the locks */

/* Releases the lock of a reader after a while. A save waits only for readers. */
static void *release(void *given)
{
    usleep(100000);
    close(*(int *)given);
    return NULL;
}

static double seconds(void)
{
    struct timespec now;
    clock_gettime(CLOCK_MONOTONIC, &now);
    return (double)now.tv_sec + (double)now.tv_nsec * 1e-9;
}

static void test_waits(void)
{
    pthread_t thread;
    boddurci_base *base = opened("here", 0);
    for (int turn = 0; turn < 3; turn++) {
        int lock = open("here.lock", O_RDONLY);
        EXPECT(lock >= 0 && flock(lock, turn == 1 ? LOCK_EX : LOCK_SH) == 0);
        double start = seconds();
        EXPECT(pthread_create(&thread, NULL, release, &lock) == 0);
        if (turn < 2)
            save(base, 20 + turn);
        else
            boddurci_close_files(base);
        EXPECT(seconds() - start > 0.09 && pthread_join(thread, NULL) == 0);
    }
    EXPECT(found("here") == 21);
}

static void *look(void *writer)
{
    while (flock(*(int *)writer, LOCK_SH | LOCK_NB) != 0)
        continue;
    return NULL;
}

/* A process that is stopped while it checks BASE.writer does not block saves. Readers use the log meanwhile, and no other process
 * writes. */
static void test_stopped(void)
{
    long number = 40;
    pthread_t thread;
    boddurci_base *base = opened("here", 0);
    int writer = open("here.writer", O_RDONLY), other = open("here.writer", O_RDONLY);
    EXPECT(writer >= 0 && other >= 0 && pthread_create(&thread, NULL, look, &writer) == 0);
    while (pthread_tryjoin_np(thread, NULL) != 0)
        save(base, ++number);
    for (int i = 0; i < 3; i++) {
        save(base, ++number);
        EXPECT(found("here") == number && flock(other, LOCK_SH | LOCK_NB) == 0 && flock(other, LOCK_UN) == 0 && !is_free("here.writer"));
    }
    EXPECT(flock(writer, LOCK_UN) == 0);
    save(base, ++number);
    EXPECT(found("here") == number && flock(other, LOCK_SH | LOCK_NB) != 0 && flock(writer, LOCK_SH | LOCK_NB) != 0);
    boddurci_close_files(base);
    EXPECT(flock(writer, LOCK_SH | LOCK_NB) == 0 && fails("here", BODDURCI_NO_WAIT, BODDURCI_LOCKED) && found("here") == number);
    close(writer);
    close(other);
    boddurci_close_files(opened("here", BODDURCI_NO_WAIT));
}

/* If the name of a lock leads to a file other than the locked one, nothing is saved. */
static void test_moved(void)
{
    static const char *const names[] = {"here.lock", "here.writer"};
    for (int i = 0; i < 2; i++) {
        long number = 30 + i;
        boddurci_base *base = opened("here", 0);
        store(base, "a", &number, sizeof number);
        EXPECT(rename(names[i], "away") == 0 && boddurci_save(base, &fault) == BODDURCI_MOVED);
        EXPECT(strstr(fault.text, i == 0 ? "BASE.lock is another file" : "BASE.writer is another file") != NULL);
        EXPECT(rename("away", names[i]) == 0 && boddurci_save(base, &fault) == BODDURCI_DONE && found("here") == number);
        boddurci_close_files(base);
    }
}

/* If the file of a lock is missing or not accepted, a reader still reads, and a writer makes the file or reports why it cannot. */
static void test_locks(void)
{
    static const char *const names[] = {"here.lock", "here.writer"};
    struct stat pages, lock;
    for (int i = 0; i < 2; i++) {
        EXPECT(unlink(names[i]) == 0 && found("here") == 31 && access(names[i], F_OK) != 0);
        boddurci_close_files(opened("here", BODDURCI_NO_WAIT));
        EXPECT(stat("here.pag", &pages) == 0 && stat(names[i], &lock) == 0 && (lock.st_mode & 07777) == (pages.st_mode & 0666));
        EXPECT(unlink(names[i]) == 0 && symlink("elsewhere", names[i]) == 0 && fails("here", 0, BODDURCI_UNSAFE));
        EXPECT(i == 0 || found("here") == 31);
        EXPECT(access("elsewhere", F_OK) != 0 && unlink(names[i]) == 0 && mkfifo(names[i], 0600) == 0 && fails("here", 0, BODDURCI_UNSAFE));
        EXPECT(i == 0 || found("here") == 31);
        EXPECT(unlink(names[i]) == 0);
    }
    boddurci_close_files(opened("here", 0));
}

/* If the redo file cannot be marked, the writer keeps BASE.lock until a save can mark the file. Root may make files everywhere, so the test
 * becomes another user first. */
static void test_unmarked(void)
{
    long number = 2;
    EXPECT(mkdir("own", 0755) == 0 && chdir("own") == 0);
    if (geteuid() == 0)
        EXPECT(chown(".", 65534, 65534) == 0 && setegid(65534) == 0 && seteuid(65534) == 0);
    boddurci_base *base = opened("db", 0);
    save(base, 1);
    boddurci_close_files(base);
    EXPECT(unlink("db.redo") == 0 && chmod(".", 0555) == 0);
    base = opened("db", 0);
    EXPECT(!is_free("db.lock") && fails("db", BODDURCI_READ_ONLY, BODDURCI_OPEN_HERE));
    store(base, "a", &number, sizeof number);
    EXPECT(boddurci_save(base, &fault) == BODDURCI_FILE_FAILED && fault.system == EACCES && !is_free("db.lock"));
    EXPECT(chmod(".", 0755) == 0 && boddurci_save(base, &fault) == BODDURCI_DONE && is_free("db.lock") && found("db") == 2);
    boddurci_close_files(base);
    EXPECT(seteuid(getuid()) == 0 && setegid(getgid()) == 0 && chdir("..") == 0);
}

/* ---- a reader in a loop */

/* Shared by the service and its reader: the number of the last save that has begun, the number of the last save that has ended, and whether
 * the service must end. */
struct shared {
    atomic_long begun, done;
    atomic_int is_over;
};

enum { PAIRS = 64, WINDOW = 100000 /* microseconds */ };

/* Opens a base with some pages, and saves one number at two keys on different pages, again and again until the end. */
static void save_in_loop(struct shared *shared)
{
    static uint8_t large[500];
    char key[8];
    boddurci_base *base = opened("loop", 0);
    for (int i = 0; i < PAIRS; i++) {
        snprintf(key, sizeof key, "k%d", i);
        store(base, key, large, sizeof large);
    }
    for (long number = 1; !shared->is_over; number++) {
        store(base, "left", &number, sizeof number);
        store(base, "right!", &number, sizeof number);
        shared->begun = number;
        EXPECT(boddurci_save(base, &fault) == BODDURCI_DONE && fault.system == 0);
        shared->done = number;
    }
    boddurci_close_files(base);
    _exit(0);
}

struct figures {
    unsigned long readings, slow;
    double most, sum;
};

/* Reads once: both keys have the number of one save, the last or the current one. */
static void read_once(struct shared *shared, int64_t milliseconds, struct figures *figures)
{
    long least = shared->done;
    double start = seconds();
    boddurci_base *reader = boddurci_open_files_within("loop", BODDURCI_READ_ONLY, milliseconds, &fault);
    double took = seconds() - start;
    EXPECT(reader != NULL);
    long most = shared->begun, left = number_on(reader, "left"), right = number_on(reader, "right!");
    boddurci_close_files(reader);
    EXPECT(left == right && left >= least && left <= most);
    figures->readings++;
    figures->slow += took > 0.05;
    figures->sum += took;
    figures->most = took > figures->most ? took : figures->most;
}

/* Returns whether the two keys are on different pages, according to the files. */
static int are_apart(void)
{
    static char bytes[1 << 20];
    FILE *file = fopen("loop.pag", "rb");
    size_t length = file != NULL ? fread(bytes, 1, sizeof bytes, file) : 0;
    EXPECT(file != NULL && fclose(file) == 0);
    char *left = memmem(bytes, length, "left", 4), *right = memmem(bytes, length, "right!", 6);
    return left != NULL && right != NULL && (left - bytes) / 1024 != (right - bytes) / 1024;
}

static void report(const char *who, const struct figures *figures)
{
    printf("%s: %lu readings, %.3f milliseconds each, %.1f the longest, %lu above 50\n", who, figures->readings,
           1000 * figures->sum / (double)figures->readings, 1000 * figures->most, figures->slow);
}

/* Makes a copy of the service's database, which nobody else uses. */
static void copy_loop(void)
{
    boddurci_base *reader = opened("loop", BODDURCI_READ_ONLY), *copy = opened("copy", 0);
    static uint8_t key[BODDURCI_VALUE_MOST], value[BODDURCI_VALUE_MOST];
    size_t key_length, value_length;
    boddurci_cursor cursor = BODDURCI_START;
    boddurci *db = boddurci_take(reader);
    boddurci_first(db, &cursor);
    while (boddurci_next(db, &cursor, key, sizeof key, &key_length, value, sizeof value, &value_length) == BODDURCI_DONE) {
        EXPECT(boddurci_store(boddurci_take(copy), key, key_length, value, value_length, 1) == BODDURCI_DONE);
        boddurci_give(copy);
    }
    boddurci_give(reader);
    EXPECT(boddurci_save(copy, &fault) == BODDURCI_DONE);
    boddurci_close_files(copy);
    boddurci_close_files(reader);
}

static void read_copy(void)
{
    boddurci_base *reader = opened("copy", BODDURCI_READ_ONLY);
    EXPECT(number_on(reader, "left") > 0);
    boddurci_close_files(reader);
}

/* The kinds of turns in the loop. */
enum { RESTS, READS_COPY, READS, READS_WITHIN, TURNS };

/* Lets the service save for a while during a turn. */
static void take_turn(int turn, struct shared *shared, useconds_t rest, struct figures *figures)
{
    double begun = seconds();
    if (turn == RESTS)
        usleep(WINDOW);
    while (turn != RESTS && seconds() - begun < WINDOW * 1e-6) {
        if (turn == READS_COPY)
            read_copy();
        else
            read_once(shared, turn == READS ? -1 : 5000, figures);
        if (rest != 0)
            usleep(rest);
    }
}

/* There are several kinds of turns: without a reader; with a reader of another database, which takes the same processor time; and with a
 * reader of the same database, which waits without a limit or for 5 seconds. The turns change often, so that the kinds are compared at
 * nearly the same time. */
static void loop(double length, useconds_t rest)
{
    struct shared *shared = mmap(NULL, sizeof *shared, PROT_READ | PROT_WRITE, MAP_SHARED | MAP_ANONYMOUS, -1, 0);
    struct figures figures[TURNS];
    long saves[TURNS] = {0};
    double times[TURNS] = {0};
    EXPECT(shared != MAP_FAILED);
    memset(figures, 0, sizeof figures);
    pid_t service = fork();
    if (service == 0)
        save_in_loop(shared);
    while (shared->done < 10)
        usleep(1000);
    EXPECT(are_apart());
    copy_loop();
    double start = seconds();
    for (int turn = 0; seconds() - start < length; turn = (turn + 1) % TURNS) {
        long before = shared->done;
        double begun = seconds();
        take_turn(turn, shared, rest, &figures[turn]);
        saves[turn] += shared->done - before;
        times[turn] += seconds() - begun;
    }
    int status;
    shared->is_over = 1;
    EXPECT(waitpid(service, &status, 0) == service && WIFEXITED(status) && WEXITSTATUS(status) == 0);
    report("a wait without an end", &figures[READS]);
    report("a wait of 5 seconds", &figures[READS_WITHIN]);
    double alone = (double)saves[RESTS] / times[RESTS];
    printf("saves a second: %.0f without a reader; beside one of another database %.0f, and of this one %.0f and %.0f\n", alone,
           (double)saves[READS_COPY] / times[READS_COPY], (double)saves[READS] / times[READS], (double)saves[READS_WITHIN] / times[READS_WITHIN]);
    unsigned long readings = figures[READS].readings + figures[READS_WITHIN].readings;
    /* Two more, since a busy machine may pause any process. */
    EXPECT(figures[READS].slow + figures[READS_WITHIN].slow <= readings / 1000 + 2);
}

int main(int argc, char **argv)
{
    if (argc < 2 || argc > 4 || chdir(argv[1]) != 0)
        return 2;
    alarm(600);
    if (argc > 2) {
        loop(atof(argv[2]), argc > 3 ? (useconds_t)atoi(argv[3]) : 0);
        return 0;
    }
    test_service();
    test_killed();
    test_redo();
    test_failed();
    test_new();
    test_shorter();
    test_turns();
    test_half();
    test_here();
    test_forked();
    test_waits();
    test_stopped();
    test_moved();
    test_locks();
    test_unmarked();
    printf("%lu answers as expected\n", looked);
    return 0;
}
