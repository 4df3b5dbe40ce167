/* Tests the calls of shared bases whose changes are flushed later. tests/unflushed builds it with its parts, c_unflushed_*.c, and runs it, with
 * a folder as the argument. */
#define _GNU_SOURCE
#include "c_unflushed.h"
#include <errno.h>
#include <fcntl.h>
#include <pthread.h>
#include <signal.h>
#include <sys/file.h>
#include <sys/resource.h>
#include <sys/syscall.h>
#include <sys/wait.h>
#include <time.h>
#include <unistd.h>

boddurci_fault fault;
unsigned long looked;

/* ---- faults of the system: the next write of .pag kills this process, or fails, and the next sync fails */

int kills, write_fails, sync_fails;
unsigned long syncs;

static int is_pages(int file)
{
    char name[40], to[300] = "";
    snprintf(name, sizeof name, "/proc/self/fd/%d", file);
    ssize_t length = readlink(name, to, sizeof to - 1);
    return length > 4 && strcmp(to + length - 4, ".pag") == 0;
}

ssize_t pwrite(int file, const void *bytes, size_t length, off_t at)
{
    int is_next = (kills || write_fails) && is_pages(file);
    if (is_next && kills)
        kill(getpid(), SIGKILL);
    if (is_next) {
        write_fails = 0;
        errno = EIO;
        return -1;
    }
    return syscall(SYS_pwrite64, file, bytes, length, at);
}

int fdatasync(int file)
{
    syncs++;
    if (!sync_fails)
        return (int)syscall(SYS_fdatasync, file);
    sync_fails = 0;
    errno = EIO;
    return -1;
}

unsigned long reserves;

int fallocate(int file, int how, off_t at, off_t length)
{
    reserves++;
    return (int)syscall(SYS_fallocate, file, how, at, length);
}

/* ---- calls */

boddurci_shared *opened(const char *name, uint32_t flags)
{
    boddurci_shared *shared = boddurci_open_shared(name, flags, &fault);
    EXPECT(shared != NULL && fault.status == BODDURCI_DONE);
    return shared;
}

uint32_t store(boddurci_shared *shared, const char *key, const char *value)
{
    return boddurci_shared_store(shared, (const uint8_t *)key, strlen(key), (const uint8_t *)value, strlen(value), 1, &fault);
}

int stores(boddurci_shared *shared, const char *key, const char *value)
{
    return store(shared, key, value) == BODDURCI_DONE && fault.status == BODDURCI_DONE && fault.system == 0;
}

int flushes(boddurci_shared *shared)
{
    return boddurci_shared_flush(shared, &fault) == BODDURCI_DONE && fault.status == BODDURCI_DONE;
}

int has(boddurci_shared *shared, const char *key, const char *value)
{
    uint8_t room[BODDURCI_VALUE_MOST];
    size_t length = 0;
    uint32_t status = boddurci_shared_fetch(shared, (const uint8_t *)key, strlen(key), room, sizeof room, &length, &fault);
    if (value == NULL)
        return status == BODDURCI_MISSING;
    return status == BODDURCI_DONE && length == strlen(value) && memcmp(room, value, length) == 0;
}

/* Returns whether the whole database has a pair. */
int is_in_files(const char *base, uint32_t flags, const char *key, const char *value)
{
    uint8_t room[BODDURCI_VALUE_MOST];
    size_t length = 0;
    boddurci_base *files = boddurci_open_files(base, flags, &fault);
    uint32_t status = boddurci_fetch(boddurci_take(files), (const uint8_t *)key, strlen(key), room, sizeof room, &length);
    boddurci_give(files);
    boddurci_close_files(files);
    return status == BODDURCI_DONE && length == strlen(value) && memcmp(room, value, length) == 0;
}

/* ---- the redo file */

int open_file(const char *base, const char *ending)
{
    char name[300];
    snprintf(name, sizeof name, "%s%s", base, ending);
    int file = open(name, O_RDWR);
    EXPECT(file >= 0);
    return file;
}

/* Reads bytes of a file, with zeros past its end. */
void read_bytes(const char *base, const char *ending, off_t at, uint8_t *bytes, size_t length)
{
    int file = open_file(base, ending);
    memset(bytes, 0, length);
    EXPECT(pread(file, bytes, length, at) >= 0);
    close(file);
}

void write_bytes(const char *base, const char *ending, off_t at, const uint8_t *bytes, size_t length)
{
    int file = open_file(base, ending);
    EXPECT(pwrite(file, bytes, length, at) == (ssize_t)length);
    close(file);
}

static uint64_t word_of(const uint8_t *bytes)
{
    uint64_t word = 0;
    for (int i = 8; i > 0; i--)
        word = word << 8 | bytes[i - 1];
    return word;
}

/* Returns a word of the notes. */
uint64_t word_at(const char *base, off_t at)
{
    uint8_t bytes[8];
    read_bytes(base, ".lock", at, bytes, sizeof bytes);
    return word_of(bytes);
}

void put_word(uint8_t *bytes, uint64_t word)
{
    for (int i = 0; i < 8; i++)
        bytes[i] = (uint8_t)(word >> 8 * i);
}

static void put_check(uint8_t *bytes, size_t length)
{
    uint64_t check = 14695981039346656037u;
    for (size_t i = 0; i < length; i += 8)
        check = (check ^ word_of(bytes + i)) * 1099511628211u;
    put_word(bytes + length, check);
}

/* Returns a number in the head of a record: four digits of base 255, each greater by 1. */
static uint64_t digits_at(const uint8_t *bytes)
{
    uint64_t number = 0;
    for (int i = 4; i > 0; i--)
        number = 255 * number + bytes[i - 1] - 1;
    return number;
}

/* Returns the end of the records, which may be after the end in the note. */
uint64_t end_of(const char *base)
{
    uint8_t head[8];
    uint64_t end = word_at(base, END);
    for (;;) {
        read_bytes(base, ".redo", (off_t)(HEADER + end), head, sizeof head);
        if (word_of(head) == 0)
            return end;
        end += sizeof head + digits_at(head + 4);
    }
}

/* Returns the number of changes in the plans of the records that the note describes. */
uint64_t changes_of(const char *base)
{
    uint8_t head[36];
    uint64_t changes = 0;
    for (uint64_t at = 0; at < word_at(base, END); at += 8 + digits_at(head + 4)) {
        read_bytes(base, ".redo", (off_t)(HEADER + at), head, sizeof head);
        changes += head[32] + 256u * head[33];
    }
    return changes;
}

uint64_t tail_of(const char *base)
{
    return end_of(base) - word_at(base, APPLIED);
}

int is_log_shared(const char *base)
{
    uint8_t is_shared;
    read_bytes(base, ".redo", SHARED, &is_shared, 1);
    return is_shared;
}

uint64_t epoch_of_log(const char *base)
{
    uint8_t bytes[8];
    read_bytes(base, ".redo", EPOCH_OF_LOG, bytes, sizeof bytes);
    return word_of(bytes);
}

int is_marked(const char *base)
{
    uint8_t mark;
    read_bytes(base, ".redo", 0, &mark, 1);
    return mark == 1;
}

/* Makes the note one of another boot of the system. */
void change_boot(const char *base)
{
    uint8_t note[CHECK + 8];
    read_bytes(base, ".lock", 0, note, sizeof note);
    note[BOOT] ^= 1;
    put_check(note, CHECK);
    write_bytes(base, ".lock", 0, note, sizeof note);
}

/* Makes changes in a child that is killed after them. */
void store_and_die(const char *base, const char *first, const char *second)
{
    int status;
    pid_t child = fork();
    if (child == 0) {
        boddurci_shared *later = opened(base, BODDURCI_NO_FLUSH);
        EXPECT(stores(later, "a", first) && stores(later, "b", first) && stores(later, "a", second));
        kill(getpid(), SIGKILL);
    }
    EXPECT(waitpid(child, &status, 0) == child && WIFSIGNALED(status) && tail_of(base) != 0);
}

/* ---- who sees a change */

static void test_views(void)
{
    boddurci_shared *later = opened("views", BODDURCI_NO_FLUSH), *now = opened("views", 0), *other = opened("views", BODDURCI_NO_FLUSH);
    EXPECT(stores(later, "a", "0") && tail_of("views") == 0);
    EXPECT(stores(later, "a", "1") && tail_of("views") != 0 && has(later, "a", "1") && has(other, "a", "1") && tail_of("views") != 0);
    EXPECT(stores(other, "b", "1") && stores(later, "c", "1") && has(other, "c", "1") && has(later, "b", "1"));
    EXPECT(is_in_files("views", BODDURCI_READ_ONLY, "a", "1") && is_in_files("views", BODDURCI_READ_ONLY, "b", "1"));
    EXPECT(tail_of("views") != 0 && stores(later, "a", "2") && has(now, "a", "2") && word_at("views", FLUSHED + 8) == end_of("views"));
    /* A call that opens the whole base closes the log. */
    EXPECT(stores(later, "a", "3") && is_in_files("views", 0, "a", "3") && !is_marked("views") && has(later, "a", "3"));
    EXPECT(stores(later, "a", "4") && stores(later, "a", "5") && boddurci_shared_delete(later, BYTES("b"), &fault) == BODDURCI_DONE);
    EXPECT(has(now, "b", NULL) && has(now, "a", "5") && boddurci_shared_delete(now, BYTES("b"), &fault) == BODDURCI_MISSING);
    boddurci_close_shared(other);
    boddurci_close_shared(now);
    boddurci_close_shared(later);
    EXPECT(tail_of("views") == 0);
}

/* A change that is flushed leaves no tail once no other call is in progress. */
static void test_flushes(void)
{
    boddurci_shared *later = opened("flushes", BODDURCI_NO_FLUSH), *now = opened("flushes", 0);
    EXPECT(flushes(later) && flushes(now) && access("flushes.redo", F_OK) != 0);
    EXPECT(stores(now, "a", "1") && tail_of("flushes") == 0);
    EXPECT(!is_log_shared("flushes") && stores(later, "a", "2") && tail_of("flushes") == 0);
    EXPECT(is_log_shared("flushes") && stores(later, "a", "3") && tail_of("flushes") != 0 && flushes(now));
    EXPECT(word_at("flushes", FLUSHED + 8) == end_of("flushes") && flushes(later) && tail_of("flushes") == 0);
    EXPECT(stores(later, "a", "4") && stores(now, "b", "1") && tail_of("flushes") == 0);
    EXPECT(boddurci_shared_flush(NULL, &fault) == BODDURCI_IS_CLOSED && boddurci_shared_flush(later, NULL) == BODDURCI_DONE);
    EXPECT(stores(later, "a", "5"));
    int lock = open_file("flushes", ".lock");
    EXPECT(flock(lock, LOCK_EX) == 0 && flushes(later) && tail_of("flushes") != 0);
    close(lock);
    boddurci_close_shared(now);
    EXPECT(tail_of("flushes") == 0 || flushes(later));
    boddurci_close_shared(later);
}

/* The tail is applied before it exceeds its limit. */
static void test_limit(void)
{
    char key[20], value[401];
    uint64_t applied = 0, times = 0, most = 0;
    boddurci_shared *later = opened("limit", BODDURCI_NO_FLUSH);
    for (int i = 0; i < 600; i++) {
        memset(value, 'a' + i % 26, 400);
        value[400] = 0;
        EXPECT(stores(later, (sprintf(key, "%d", i % 12), key), value) && has(later, key, value));
        EXPECT(tail_of("limit") <= TAIL_MOST);
        most = tail_of("limit") > most ? tail_of("limit") : most;
        times += word_at("limit", APPLIED) != applied;
        applied = word_at("limit", APPLIED);
    }
    EXPECT(times > 5 && times < 60 && most > TAIL_MOST / 2);
    boddurci_close_shared(later);
    EXPECT(tail_of("limit") == 0);
}

/* A long tail is flushed before it is applied, and the second note says so. */
static void test_due(void)
{
    char value[401];
    memset(value, 'a', 400);
    value[400] = 0;
    boddurci_shared *later = opened("due", BODDURCI_NO_FLUSH);
    EXPECT(stores(later, "a", "0") && stores(later, "a", "1"));
    uint64_t flushed = word_at("due", FLUSHED + 8), applied = word_at("due", APPLIED);
    unsigned long before = syncs;
    for (int i = 0; word_at("due", FLUSHED + 8) == flushed; i++)
        EXPECT(syncs == before && i < 600 && stores(later, "a", i % 2 ? value : "0"));
    EXPECT(syncs == before + 1 && word_at("due", FLUSHED + 8) == end_of("due") && tail_of("due") >= TAIL_MOST / 4 * 3);
    EXPECT(word_at("due", APPLIED) == applied && stores(later, "a", "1") && word_at("due", APPLIED) > applied && syncs == before + 1);
    boddurci_close_shared(later);
}

/* ---- processes */

static int counts(boddurci_shared *shared, int times)
{
    uint64_t end, number;
    for (int i = 0; i < times; i++)
        if (boddurci_shared_add(shared, BYTES("n"), 1, 0, UINT64_MAX, &end, &number, &fault) != BODDURCI_DONE || end != 1)
            return 0;
    return 1;
}

/* A handle may be opened before a fork, even while the log has a tail. */
static void test_forks(void)
{
    enum { CHILDREN = 6, TIMES = 60 };
    uint64_t end, number;
    boddurci_shared *later = opened("forks", BODDURCI_NO_FLUSH), *now = opened("forks", 0);
    EXPECT(boddurci_shared_wait(later, 60000) == BODDURCI_DONE && boddurci_shared_wait(now, 60000) == BODDURCI_DONE);
    EXPECT(counts(later, 3));
    for (int i = 0; i < CHILDREN; i++)
        if (fork() == 0) {
            int is_right = counts(i % 2 ? later : now, TIMES) && (i % 3 != 0 || boddurci_shared_flush(later, &fault) == BODDURCI_DONE);
            boddurci_close_shared(later);
            boddurci_close_shared(now);
            _exit(is_right ? 0 : 1);
        }
    EXPECT(counts(later, TIMES) && counts(now, TIMES));
    for (int i = 0, status; i < CHILDREN; i++)
        EXPECT(wait(&status) > 0 && status == 0);
    EXPECT(boddurci_shared_add(now, BYTES("n"), 1, 0, UINT64_MAX, &end, &number, &fault) == BODDURCI_DONE);
    EXPECT(number == 3 + TIMES * (CHILDREN + 2) + 1 && flushes(later));
    boddurci_close_shared(later);
    boddurci_close_shared(now);
    EXPECT(tail_of("forks") == 0);
}

static boddurci_shared *of_thread;

static void *flush_in_thread(void *unused)
{
    return flushes(of_thread) ? unused : "it was not flushed";
}

/* A call that flushes waits for the lock of the redo file, and a child that is forked meanwhile does not hold that lock. */
static void test_waiting(void)
{
    int status;
    void *why = NULL;
    pthread_t thread;
    of_thread = opened("waiting", BODDURCI_NO_FLUSH);
    boddurci_shared *now = opened("waiting", 0);
    EXPECT(stores(of_thread, "a", "1") && stores(of_thread, "a", "2"));
    int redo = open_file("waiting", ".redo");
    EXPECT(flock(redo, LOCK_EX) == 0 && pthread_create(&thread, NULL, flush_in_thread, NULL) == 0);
    nanosleep(&(struct timespec){0, 50000000}, NULL);
    EXPECT(word_at("waiting", FLUSHED + 8) != end_of("waiting"));
    /* No lock of the base is held meanwhile. */
    boddurci_shared *later = opened("waiting", BODDURCI_NO_FLUSH | BODDURCI_NO_WAIT);
    EXPECT(has(later, "a", "2") && stores(later, "a", "3"));
    pid_t child = fork();
    if (child == 0) {
        pause();
        _exit(0);
    }
    EXPECT(flock(redo, LOCK_UN) == 0 && pthread_join(thread, &why) == 0 && why == NULL);
    EXPECT(stores(now, "a", "4") && has(now, "a", "4") && kill(child, SIGKILL) == 0 && waitpid(child, &status, 0) == child);
    /* If a stopped process holds the lock of the redo file, a call flushes without it. */
    EXPECT(flock(redo, LOCK_EX) == 0 && stores(later, "a", "5") && stores(now, "a", "6") && has(now, "a", "6"));
    EXPECT(word_at("waiting", FLUSHED + 8) == end_of("waiting"));
    close(redo);
    boddurci_close_shared(later);
    boddurci_close_shared(now);
    boddurci_close_shared(of_thread);
}

/* ---- faults */

/* If a record or the blocks of the data files exceed the limits of this process, nothing changes. */
static void test_too_long(void)
{
    struct rlimit most, less;
    boddurci_shared *later = opened("long", BODDURCI_NO_FLUSH);
    EXPECT(getrlimit(RLIMIT_FSIZE, &most) == 0 && stores(later, "a", "1") && stores(later, "a", "2"));
    less = most;
    less.rlim_cur = 1000;
    EXPECT(setrlimit(RLIMIT_FSIZE, &less) == 0);
    EXPECT(store(later, "a", "3") == BODDURCI_FILE_FAILED && has(later, "a", "2"));
    EXPECT(setrlimit(RLIMIT_FSIZE, &most) == 0 && stores(later, "a", "4") && has(later, "a", "4") && flushes(later));
    boddurci_close_shared(later);
}

/* A process that may not write files can still fetch, and flush what others wrote. */
static void test_no_writes(void)
{
    int status;
    static const struct rlimit none = {0, 0};
    boddurci_shared *later = opened("none", BODDURCI_NO_FLUSH);
    EXPECT(stores(later, "a", "1") && stores(later, "a", "2") && tail_of("none") != 0);
    pid_t child = fork();
    if (child == 0) {
        boddurci_shared *now = opened("none", 0);
        _exit(setrlimit(RLIMIT_FSIZE, &none) == 0 && has(now, "a", "2") && boddurci_shared_flush(now, &fault) == BODDURCI_DONE ? 0 : 1);
    }
    EXPECT(waitpid(child, &status, 0) == child && WIFEXITED(status) && WEXITSTATUS(status) == 0);
    EXPECT(stores(later, "a", "3") && flushes(later) && word_at("none", FLUSHED + 8) == end_of("none"));
    boddurci_close_shared(later);
}

/* Other users do not accept a redo file that has another owner than .pag. A call applies its tail before it removes the file. */
static void test_owners(void)
{
    if (geteuid() != 0)
        return;
    boddurci_shared *later = opened("owners", BODDURCI_NO_FLUSH), *now = opened("owners", 0);
    EXPECT(stores(later, "a", "1") && stores(later, "a", "2") && tail_of("owners") != 0);
    EXPECT(chown("owners.redo", 7002, 7003) == 0 && nanosleep(&(struct timespec){0, 20000000}, NULL) == 0);
    EXPECT(stores(later, "b", "1") && access("owners.redo", F_OK) != 0);
    EXPECT(has(later, "a", "2") && has(now, "b", "1") && is_in_files("owners", BODDURCI_READ_ONLY, "b", "1"));
    boddurci_close_shared(now);
    boddurci_close_shared(later);
}

int main(int count, char **words)
{
    EXPECT(count == 2 && chdir(words[1]) == 0);
    test_views();
    test_flushes();
    test_limit();
    test_due();
    test_records();
    test_logs();
    test_forks();
    test_waiting();
    test_too_long();
    test_no_writes();
    test_owners();
    printf("%lu checks\n", looked);
    return 0;
}
