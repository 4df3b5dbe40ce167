/* Tests the locks of a shared base: calls that wait for other processes, services, signals, and locks that fail or are replaced. Part of
 * tests/c_shared.c. */
#define _GNU_SOURCE
#include "c_shared.h"
#include <errno.h>
#include <fcntl.h>
#include <signal.h>
#include <sys/file.h>
#include <sys/syscall.h>
#include <sys/time.h>
#include <sys/wait.h>
#include <time.h>
#include <unistd.h>

static int has_no_locks;

/* Replaces the function of the C library, for Boddurci too. On request it fails as on a file system without locks. */
int flock(int file, int how)
{
    if (!has_no_locks)
        return (int)syscall(SYS_flock, file, how);
    errno = ENOLCK;
    return -1;
}

static double seconds(void)
{
    struct timespec time;
    clock_gettime(CLOCK_MONOTONIC, &time);
    return (double)time.tv_sec + 1e-9 * (double)time.tv_nsec;
}

void test_locks(void)
{
    boddurci_shared *shared = opened("locks", 0), *once = opened("locks", BODDURCI_NO_WAIT);
    EXPECT(store(shared, "a", "b") == BODDURCI_DONE && boddurci_shared_wait(shared, 100) == BODDURCI_DONE);
    for (int i = 0; i < 3; i++) {
        int lock = taken(i < 2 ? "locks.lock" : "locks.writer", i == 0 ? LOCK_SH : LOCK_EX);
        double start = seconds();
        EXPECT(store(shared, "a", "c") == BODDURCI_LOCKED && fault.status == BODDURCI_LOCKED && strstr(fault.text, "process") != NULL);
        double took = seconds() - start;
        EXPECT(took > 0.09 && took < 3 && store(once, "a", "c") == BODDURCI_LOCKED);
        EXPECT(i == 1 ? boddurci_shared_fetch(once, BYTES("a"), NULL, 0, NULL, &fault) == BODDURCI_LOCKED : has(shared, "a", "b"));
        close(lock);
        EXPECT(has(shared, "a", "b") && has(once, "a", "b"));
    }
    /* The names of the locks lead to other files. */
    EXPECT(unlink("locks.lock") == 0 && unlink("locks.writer") == 0 && store(shared, "a", "d") == BODDURCI_DONE && has(once, "a", "d"));
    /* The shared base keeps no lock. */
    int lock = taken("locks.lock", LOCK_EX | LOCK_NB), writer = taken("locks.writer", LOCK_EX | LOCK_NB);
    close(lock);
    close(writer);
    boddurci_close_shared(once);
    boddurci_close_shared(shared);
}

/* On a file system without locks each call fails, and names the lock. */
void test_no_locks(void)
{
    boddurci_shared *shared = opened("unlocked", 0);
    EXPECT(store(shared, "a", "b") == BODDURCI_DONE);
    has_no_locks = 1;
    for (int i = 0; i < 2; i++) {
        uint32_t status = i == 0 ? store(shared, "a", "c") : boddurci_shared_fetch(shared, BYTES("a"), NULL, 0, NULL, &fault);
        EXPECT(status == BODDURCI_FILE_FAILED && fault.status == status && fault.system == ENOLCK && strstr(fault.text, "BASE.lock") != NULL);
    }
    has_no_locks = 0;
    EXPECT(has(shared, "a", "b") && store(shared, "a", "c") == BODDURCI_DONE && has(shared, "a", "c"));
    boddurci_close_shared(shared);
}

/* Tests a base that is open for writing, by this thread or by another process. */
void test_services(void)
{
    boddurci_shared *shared = opened("service", 0);
    EXPECT(store(shared, "a", "1") == BODDURCI_DONE && boddurci_shared_wait(shared, 50) == BODDURCI_DONE);
    boddurci_base *base = boddurci_open_files("service", 0, &fault);
    EXPECT(base != NULL && store(shared, "a", "2") == BODDURCI_OPEN_HERE && has(shared, "a", "1"));
    EXPECT(boddurci_store(boddurci_take(base), BYTES("a"), BYTES("3"), 1) == BODDURCI_DONE);
    boddurci_give(base);
    EXPECT(has(shared, "a", "1") && boddurci_save(base, &fault) == BODDURCI_DONE && has(shared, "a", "3"));
    pid_t child = fork();
    if (child == 0) {
        boddurci_shared_wait(shared, 50);
        int is_locked = store(shared, "a", "2") == BODDURCI_LOCKED && strstr(fault.text, "open to be written") != NULL;
        _exit(is_locked && has(shared, "a", "3") ? 0 : 1);
    }
    int status;
    EXPECT(waitpid(child, &status, 0) == child && status == 0);
    boddurci_close_files(base);
    EXPECT(store(shared, "a", "4") == BODDURCI_DONE && has(shared, "a", "4"));
    base = boddurci_open_files("service", BODDURCI_READ_ONLY, &fault);
    uint8_t value[9];
    size_t length;
    EXPECT(base != NULL && boddurci_fetch(boddurci_take(base), BYTES("a"), value, 9, &length) == BODDURCI_DONE && value[0] == '4');
    boddurci_give(base);
    boddurci_close_files(base);
    base = boddurci_open_files("service", 0, &fault);
    EXPECT(base != NULL && boddurci_fetch(boddurci_take(base), BYTES("a"), value, 9, &length) == BODDURCI_DONE && value[0] == '4');
    boddurci_give(base);
    boddurci_close_files(base);
    boddurci_close_shared(shared);
}

/* Saves a pair by a service that is then killed, so that the log has no note. */
static void store_and_die(const char *base, const char *value)
{
    int status;
    pid_t child = fork();
    if (child == 0) {
        boddurci_base *service = boddurci_open_files(base, 0, &fault);
        (void)!boddurci_store(boddurci_take(service), BYTES("a"), (const uint8_t *)value, strlen(value), 1);
        boddurci_give(service);
        if (boddurci_save(service, &fault) == BODDURCI_DONE)
            kill(getpid(), SIGKILL);
        _exit(1);
    }
    EXPECT(waitpid(child, &status, 0) == child && WIFSIGNALED(status) && is_marked(base));
}

/* A fetch finds a log that must be recovered, while a service that waits for the files holds BASE.writer shared. The fetch does not need
 * that lock. */
void test_waiting(void)
{
    boddurci_shared *shared = opened("waited", 0), *once = opened("waited", BODDURCI_NO_WAIT);
    EXPECT(store(shared, "a", "1") == BODDURCI_DONE);
    store_and_die("waited", "2");
    int writer = taken("waited.writer", LOCK_SH);
    double start = seconds();
    EXPECT(has(shared, "a", "2") && seconds() - start < 3 && has(once, "a", "2") && is_marked("waited"));
    close(writer);
    EXPECT(has(once, "a", "2") && !is_marked("waited"));
    boddurci_close_shared(once);
    boddurci_close_shared(shared);
}

static void do_nothing(int signal)
{
    (void)signal;
}

/* Waits for the files like a service, ten times, while other processes take BASE.lock again and again. */
static void wait_as_service(void)
{
    int writer = taken("signals.writer", LOCK_SH), lock = taken("signals.lock", LOCK_SH);
    for (int i = 0; i < 10; i++) {
        (void)!flock(lock, LOCK_EX);
        rest();
        flock(lock, LOCK_UN);
        rest();
    }
    close(writer);
    _exit(0);
}

/* Tests signals during a fetch that waits. */
void test_signals(void)
{
    static const struct itimerval often = {{0, 2000}, {0, 2000}}, never = {{0, 0}, {0, 0}};
    boddurci_shared *shared = opened("signals", 0);
    EXPECT(store(shared, "a", "1") == BODDURCI_DONE);
    EXPECT(sigaction(SIGALRM, &(struct sigaction){.sa_handler = do_nothing}, NULL) == 0);
    for (int i = 0, status; i < 3; i++) {
        store_and_die("signals", i % 2 ? "odd" : "even");
        pid_t child = fork();
        if (child == 0)
            wait_as_service();
        rest();
        EXPECT(setitimer(ITIMER_REAL, &often, NULL) == 0 && has(shared, "a", i % 2 ? "odd" : "even"));
        EXPECT(setitimer(ITIMER_REAL, &never, NULL) == 0 && waitpid(child, &status, 0) == child && status == 0);
    }
    boddurci_close_shared(shared);
}

/* The file of a lock is replaced just after some changes, and another process holds the new lock. */
void test_replaced_locks(void)
{
    static const struct timespec old = {0, 30000000};
    boddurci_shared *shared = opened("replaced", BODDURCI_NO_WAIT);
    for (int i = 0; i < 20; i++) {
        const char *name = i % 2 ? "replaced.lock" : "replaced.writer";
        EXPECT(store(shared, "a", "b") == BODDURCI_DONE);
        nanosleep(&old, NULL);
        for (int times = 0; times < 5; times++)
            EXPECT(store(shared, "a", "b") == BODDURCI_DONE);
        EXPECT(unlink(name) == 0);
        int file = open(name, O_RDWR | O_CREAT, 0644);
        EXPECT(file >= 0 && flock(file, LOCK_EX) == 0);
        EXPECT(store(shared, "a", "c") == BODDURCI_LOCKED && has(shared, "a", "b") == (i % 2 == 0));
        close(file);
    }
    boddurci_close_shared(shared);
}
