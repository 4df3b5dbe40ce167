/* Tests logs whose notes do not belong to them: logs that were closed, put back, replaced or removed, or used by another user. Part of
 * tests/c_unflushed.c. */
#define _GNU_SOURCE
#include "c_unflushed.h"
#include <fcntl.h>
#include <signal.h>
#include <sys/file.h>
#include <sys/stat.h>
#include <sys/wait.h>
#include <time.h>
#include <unistd.h>

struct copy {
    uint8_t bytes[3][1 << 17];
    ssize_t lengths[3];
};

static const char *const endings[3] = {".pag", ".dir", ".redo"};

static void copy_of(const char *base, struct copy *copy)
{
    for (int i = 0; i < 3; i++) {
        int file = open_file(base, endings[i]);
        copy->lengths[i] = pread(file, copy->bytes[i], sizeof copy->bytes[i], 0);
        EXPECT(copy->lengths[i] >= 0 && (i == 2 || copy->lengths[i] < (ssize_t)sizeof copy->bytes[i]));
        close(file);
    }
}

/* Puts the copies back: as new files, or into the present files. The rest of the redo file is zeros, up to its present length. */
static void restore(const char *base, const struct copy *copy, int is_new)
{
    for (int i = 0; i < 3; i++) {
        char name[300];
        struct stat found;
        snprintf(name, sizeof name, "%s%s", base, endings[i]);
        EXPECT(stat(name, &found) == 0 && (!is_new || unlink(name) == 0));
        int file = open(name, O_RDWR | O_CREAT, 0644);
        EXPECT(file >= 0 && ftruncate(file, copy->lengths[i]) == 0);
        EXPECT(pwrite(file, copy->bytes[i], (size_t)copy->lengths[i], 0) == copy->lengths[i]);
        EXPECT(i < 2 || ftruncate(file, found.st_size) == 0);
        close(file);
    }
}

/* Whoever empties, recovers or closes a log makes the notes about it invalid. */
static void test_epochs(void)
{
    uint64_t first, second;
    boddurci_shared *later = opened("epochs", BODDURCI_NO_FLUSH);
    EXPECT(stores(later, "a", "1") && stores(later, "a", "2") && tail_of("epochs") != 0);
    first = epoch_of_log("epochs");
    EXPECT(first != 0 && first == word_at("epochs", EPOCH) && stores(later, "a", "3") && epoch_of_log("epochs") == first);
    /* A service recovers the tail, and has the log open for its own saves. */
    boddurci_base *service = boddurci_open_files("epochs", 0, &fault);
    EXPECT(service != NULL && epoch_of_log("epochs") == 0);
    EXPECT(boddurci_store(boddurci_take(service), BYTES("a"), BYTES("4"), 1) == BODDURCI_DONE);
    boddurci_give(service);
    EXPECT(boddurci_save(service, &fault) == BODDURCI_DONE && is_marked("epochs") && epoch_of_log("epochs") == 0);
    boddurci_close_files(service);
    EXPECT(!is_marked("epochs") && epoch_of_log("epochs") == 0 && has(later, "a", "4"));
    EXPECT(stores(later, "a", "5") && (second = epoch_of_log("epochs")) != 0 && second != first);
    /* A call recovers the log. */
    change_boot("epochs");
    EXPECT(stores(later, "a", "6") && epoch_of_log("epochs") != second && epoch_of_log("epochs") == word_at("epochs", EPOCH));
    EXPECT(is_in_files("epochs", 0, "a", "6") && epoch_of_log("epochs") == 0);
    boddurci_close_shared(later);
}

/* A copy of all files of the database is put back after later changes. Its log has a tail that is not in its data files. */
static void test_restored(void)
{
    static struct copy before;
    for (int how = 0; how < 16; how++) {
        char value[20];
        sprintf(value, "%d", how);
        store_and_die("restored", "x", value);
        copy_of("restored", &before);
        boddurci_shared *later = opened("restored", BODDURCI_NO_FLUSH), *now = opened("restored", 0);
        EXPECT(stores(later, "a", "later") && has(later, "a", "later"));
        if (how < 8)
            EXPECT(stores(now, "c", "later") && flushes(now));
        if (how / 2 % 2)
            EXPECT(stores(later, "a", "unflushed") && has(later, "a", "unflushed"));
        restore("restored", &before, how % 2);
        if (how / 4 % 2)
            EXPECT(is_in_files("restored", BODDURCI_READ_ONLY, "a", value) && is_in_files("restored", 0, "a", value));
        EXPECT(has(now, "a", value) && has(later, "b", "x") && stores(later, "d", value) && has(now, "a", value) && flushes(now));
        boddurci_close_shared(now);
        boddurci_close_shared(later);
        EXPECT(is_in_files("restored", 0, "a", value));
    }
}

/* Only a copy of the log is put back, or of the log and its note, and another handle appends records of the same lengths. The last bytes of
 * each record are those of the removed one. */
static void test_restored_log(void)
{
    enum { FLUSHED_ONCE = 1, LONG = 2 };
    static uint8_t before[1 << 17], note[FAILED];
    char value[3][401];
    for (int how = 0; how < 4; how++) {
        int times = how & LONG ? 9 : 1;
        for (int i = 0; i < 3; i++) {
            memset(value[i], 'A' + i, 400);
            value[i][400] = 0;
        }
        boddurci_shared *one = opened("log", BODDURCI_NO_FLUSH), *now = opened("log", 0);
        EXPECT(stores(one, "k", value[0]) && stores(one, "z", "0") && stores(one, "k", value[0]) && flushes(one) && tail_of("log") == 0);
        read_bytes("log", ".redo", 0, before, sizeof before);
        read_bytes("log", ".lock", 0, note, sizeof note);
        for (int i = 0; i < times; i++)
            EXPECT(stores(one, "k", value[1]) && stores(one, "k", value[i % 2]) && has(one, "k", value[i % 2]));
        int lock = open_file("log", ".lock");
        EXPECT(flock(lock, LOCK_EX) == 0 && (how & FLUSHED_ONCE ? flushes(one) && tail_of("log") != 0 : 1));
        close(lock);
        write_bytes("log", ".redo", 0, before, sizeof before);
        if (how & LONG)
            write_bytes("log", ".lock", 0, note, sizeof note);
        unsigned long synced = syncs;
        boddurci_shared *other = opened("log", BODDURCI_NO_FLUSH);
        EXPECT(has(other, "k", value[0]) && stores(other, "k", value[2]) && stores(other, "k", value[2]) && has(one, "k", value[2]));
        EXPECT(flushes(now) && syncs > synced && stores(one, "z", "2") && has(other, "k", value[2]));
        EXPECT(flushes(one) && word_at("log", FLUSHED + 8) == end_of("log"));
        boddurci_close_shared(other);
        boddurci_close_shared(now);
        boddurci_close_shared(one);
        EXPECT(is_in_files("log", 0, "k", value[2]));
    }
}

/* A handle joins the plans of one log, and then appends to another log, which the same call must apply and remove. */
static void test_other_log(void)
{
    if (geteuid() != 0)
        return;
    boddurci_shared *later = opened("other", BODDURCI_NO_FLUSH), *now = opened("other", 0);
    for (int i = 0; i < 60; i++)
        EXPECT(stores(later, "a", i % 2 ? "old" : "odd") && has(later, "a", i % 2 ? "old" : "odd"));
    EXPECT(is_in_files("other", 0, "a", "old") && stores(now, "a", "new") && stores(now, "y", "new"));
    EXPECT(chown("other.redo", 7002, 7003) == 0 && nanosleep(&(struct timespec){0, 20000000}, NULL) == 0);
    EXPECT(stores(later, "z", "1") && has(now, "a", "new") && has(now, "z", "1") && has(later, "y", "new"));
    EXPECT(is_in_files("other", 0, "a", "new") && is_in_files("other", 0, "z", "1"));
    boddurci_close_shared(now);
    boddurci_close_shared(later);
}

/* A flush is of the log under the name, even just after many changes of another log. */
static void test_removed_log(void)
{
    boddurci_shared *one = opened("removed", BODDURCI_NO_FLUSH), *other = opened("removed", BODDURCI_NO_FLUSH);
    for (int times = 0; times < 5; times++) {
        EXPECT(stores(other, "a", "0") && nanosleep(&(struct timespec){0, 30000000}, NULL) == 0);
        for (int i = 0; i < 300; i++)
            EXPECT(stores(one, "a", i % 2 ? "1" : "2"));
        EXPECT(is_in_files("removed", 0, "a", "1") && unlink("removed.redo") == 0);
        EXPECT(stores(other, "a", "2") && stores(other, "a", "3") && flushes(one));
        EXPECT(word_at("removed", FLUSHED + 8) == end_of("removed"));
    }
    boddurci_close_shared(one);
    boddurci_close_shared(other);
}

/* A user who may not write BASE.lock can change the base, and no record is lost. */
static void test_other_user(void)
{
    int status;
    if (geteuid() != 0)
        return;
    EXPECT(mkdir("user", 0755) == 0 && chmod(".", 0755) == 0);
    boddurci_shared *later = opened("user/db", BODDURCI_NO_FLUSH);
    EXPECT(stores(later, "a", "1") && stores(later, "b", "1"));
    EXPECT(chmod("user", 0777) == 0 && chmod("user/db.pag", 0666) == 0 && chmod("user/db.dir", 0666) == 0 && chmod("user/db.redo", 0666) == 0);
    EXPECT(chmod("user/db.lock", 0644) == 0 && chmod("user/db.writer", 0644) == 0);
    for (int i = 0; i < 3; i++) {
        const char *value = i % 2 ? "odd" : "even";
        pid_t child = fork();
        if (child == 0) {
            EXPECT(setgid(65534) == 0 && setuid(65534) == 0);
            boddurci_shared *shared = opened("user/db", i % 2 ? 0 : BODDURCI_NO_FLUSH);
            EXPECT(stores(shared, "a", value) && has(shared, "a", value));
            kill(getpid(), SIGKILL);
        }
        EXPECT(waitpid(child, &status, 0) == child && WIFSIGNALED(status));
        EXPECT(is_in_files("user/db", BODDURCI_READ_ONLY, "a", value) && has(later, "a", value) && flushes(later));
        EXPECT(stores(later, "b", value) && has(later, "b", value));
    }
    boddurci_close_shared(later);
}

void test_logs(void)
{
    test_epochs();
    test_restored();
    test_restored_log();
    test_other_log();
    test_removed_log();
    test_other_user();
}
