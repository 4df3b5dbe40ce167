/* Tests the records of a log: after interruptions and losses of power, after the end in the note, and after failed writes and syncs. Part of
 * tests/c_unflushed.c. */
#define _GNU_SOURCE
#include "c_unflushed.h"
#include <errno.h>
#include <signal.h>
#include <sys/stat.h>
#include <sys/wait.h>
#include <time.h>
#include <unistd.h>

/* ---- interruptions */

enum damage { NONE, OLD_NOTE, JUNK, OTHER_BOOT, BAD_NOTE, FAILED_FLUSH, TOUCHED, NO_LOCK, OTHER_EPOCH, SHORT_LOCK, DAMAGES };

/* Damages the files as an interruption might. `before` is the note before the last change. */
static void damage(const char *base, enum damage how, const uint8_t before[CHECK + 8])
{
    uint8_t epoch[8], junk[3] = {7, 9, 3};
    int lock = open_file(base, ".lock"), pages = open_file(base, ".pag");
    switch (how) {
    case OLD_NOTE: write_bytes(base, ".lock", 0, before, CHECK + 8); break;
    case JUNK: write_bytes(base, ".redo", (off_t)(HEADER + end_of(base)), junk, sizeof junk); break;
    case OTHER_BOOT: change_boot(base); break;
    case BAD_NOTE: write_bytes(base, ".lock", 40, junk, sizeof junk); break;
    case FAILED_FLUSH:
        put_word(epoch, word_at(base, EPOCH));
        write_bytes(base, ".lock", FAILED, epoch, sizeof epoch);
        break;
    case TOUCHED: EXPECT(fchmod(pages, 0600) == 0); break;
    case NO_LOCK: EXPECT(unlink("kills.lock") == 0); break;
    case OTHER_EPOCH: write_bytes(base, ".redo", EPOCH_OF_LOG, junk, sizeof junk); break;
    case SHORT_LOCK: EXPECT(ftruncate(lock, 50) == 0); break;
    default: break;
    }
    close(lock);
    close(pages);
}

/* After an interruption all changes are found, in whichever way the base is used first. */
static void test_kills(void)
{
    enum { FIRSTS = 5 };
    uint8_t before[CHECK + 8];
    for (enum damage how = NONE; how < DAMAGES; how++)
        for (int first = 0; first < FIRSTS; first++) {
            char value[20], last[20];
            sprintf(value, "v%d", how * FIRSTS + first);
            sprintf(last, "w%d", how * FIRSTS + first);
            store_and_die("kills", value, value);
            boddurci_shared *later = opened("kills", BODDURCI_NO_FLUSH), *now = opened("kills", 0);
            read_bytes("kills", ".lock", 0, before, sizeof before);
            EXPECT(stores(later, "c", last));
            uint64_t epoch = epoch_of_log("kills");
            damage("kills", how, before);
            if (first == 0)
                EXPECT(has(now, "c", last));
            else if (first == 1)
                EXPECT(is_in_files("kills", BODDURCI_READ_ONLY, "c", last));
            else if (first == 2)
                EXPECT(is_in_files("kills", 0, "c", last));
            else
                EXPECT(stores(first == 3 ? now : later, "d", last));
            /* A part of a record is not left in the log. */
            EXPECT(how != JUNK || first == 1 || epoch_of_log("kills") != epoch);
            EXPECT(has(later, "a", value) && has(later, "b", value) && has(now, "c", last) && has(later, "d", first < 3 ? NULL : last));
            EXPECT(boddurci_shared_delete(later, BYTES("d"), &fault) == (first < 3 ? BODDURCI_MISSING : BODDURCI_DONE));
            EXPECT(flushes(later));
            boddurci_close_shared(later);
            boddurci_close_shared(now);
        }
}

/* After a loss of power, the log ends before the first record that is not whole, and later changes continue from there. */
static void test_lost_records(void)
{
    static const uint8_t zero;
    uint64_t ends[3];
    for (int lost = 0; lost < 3; lost++) {
        boddurci_shared *later = opened("lost", BODDURCI_NO_FLUSH);
        EXPECT(flushes(later) && stores(later, "a", "before") && stores(later, "b", "before") && flushes(later));
        for (int i = 0; i < 3; i++) {
            ends[i] = end_of("lost");
            EXPECT(stores(later, i == 2 ? "b" : "a", i == 0 ? "first" : i == 1 ? "second" : "third"));
        }
        write_bytes("lost", ".redo", (off_t)(HEADER + ends[lost] + 10), &zero, 1);
        change_boot("lost");
        EXPECT(has(later, "a", lost == 0 ? "before" : lost == 1 ? "first" : "second") && has(later, "b", "before"));
        EXPECT(stores(later, "b", "after") && has(later, "b", "after"));
        EXPECT(is_in_files("lost", BODDURCI_READ_ONLY, "b", "after"));
        boddurci_close_shared(later);
    }
}

/* ---- records after the end in the note */

enum { UNNOTED_MOST = 4096 };

/* Returns the length of the records after the end in the note. */
static uint64_t unnoted_of(const char *base)
{
    return end_of(base) - word_at(base, END);
}

/* Most changes with NO_FLUSH leave no note, and a flushed change leaves one. Each handle sees them. */
static void test_unnoted(void)
{
    char value[20];
    uint64_t most = 0, notes = 0, end = 0;
    boddurci_shared *later = opened("unnoted", BODDURCI_NO_FLUSH), *other = opened("unnoted", BODDURCI_NO_FLUSH), *now = opened("unnoted", 0);
    EXPECT(stores(later, "a", "1") && stores(later, "b", "1") && unnoted_of("unnoted") != 0 && word_at("unnoted", END) == word_at("unnoted", APPLIED));
    EXPECT(has(now, "b", "1") && word_at("unnoted", FLUSHED + 8) == end_of("unnoted"));
    for (int i = 0; i < 200; i++) {
        sprintf(value, "%d", i);
        EXPECT(stores(i % 2 ? later : other, i % 3 ? "a" : "b", value) && has(i % 5 ? other : later, i % 3 ? "a" : "b", value));
        EXPECT(unnoted_of("unnoted") <= UNNOTED_MOST);
        most = unnoted_of("unnoted") > most ? unnoted_of("unnoted") : most;
        notes += word_at("unnoted", END) != end;
        end = word_at("unnoted", END);
        EXPECT(word_at("unnoted", COUNT) == changes_of("unnoted"));
    }
    EXPECT(most > UNNOTED_MOST / 2 && notes > 2 && notes < 40 && unnoted_of("unnoted") != 0);
    EXPECT(stores(now, "c", "1") && unnoted_of("unnoted") == 0 && tail_of("unnoted") == 0 && has(later, "a", "199") && has(other, "b", "198"));
    EXPECT(stores(later, "c", "2") && unnoted_of("unnoted") != 0 && flushes(other) && tail_of("unnoted") == 0 && has(now, "c", "2"));
    boddurci_close_shared(now);
    boddurci_close_shared(other);
    boddurci_close_shared(later);
}

/* Changes that allocate blocks of .pag leave a note with its new time, so a later call does not take them for those of another program. */
static void test_unnoted_blocks(void)
{
    char key[20], value[301];
    memset(value, 'v', 300);
    value[300] = 0;
    boddurci_shared *later = opened("blocks", BODDURCI_NO_FLUSH);
    EXPECT(stores(later, "a", "1") && stores(later, "a", "2"));
    uint64_t epoch = epoch_of_log("blocks");
    for (int i = 0; i < 30; i++) {
        EXPECT(nanosleep(&(struct timespec){0, 6000000}, NULL) == 0);
        EXPECT(stores(later, (sprintf(key, "key%d", i), key), value) && epoch_of_log("blocks") == epoch);
    }
    boddurci_close_shared(later);
}

static off_t length_of_pages(const char *base)
{
    int pages = open_file(base, ".pag");
    off_t length = lseek(pages, 0, SEEK_END);
    close(pages);
    return length;
}

/* A change that writes a page of zeros, which may be a hole, allocates its blocks before its record is appended. A change that only overwrites
 * other bytes allocates nothing. */
static void test_holes(void)
{
    char key[20], value[901];
    unsigned long holes = 0;
    memset(value, 'v', 900);
    value[900] = 0;
    boddurci_shared *later = opened("holes", BODDURCI_NO_FLUSH);
    for (int i = 0; i < 30; i++)
        EXPECT(stores(later, (sprintf(key, "key%d", i), key), value));
    EXPECT(flushes(later));
    for (int i = 0; i < 30; i++) {
        sprintf(key, "key%d", i);
        value[0]++;
        unsigned long before = reserves;
        EXPECT(stores(later, key, value) && stores(later, key, value) && reserves == before && flushes(later));
        EXPECT(boddurci_shared_delete(later, (const uint8_t *)key, strlen(key), &fault) == BODDURCI_DONE && flushes(later));
        off_t length = length_of_pages("holes");
        before = reserves;
        EXPECT(stores(later, key, value) && stores(later, "other", "1") && flushes(later));
        holes += length_of_pages("holes") == length && reserves != before;
    }
    EXPECT(holes > 5);
    boddurci_close_shared(later);
}

/* Makes a call in a child that is killed after it. */
static void call_and_die(const char *base, uint32_t flags, const char *key, const char *value)
{
    int status;
    pid_t child = fork();
    if (child == 0) {
        boddurci_shared *shared = opened(base, flags);
        EXPECT(value == NULL ? has(shared, key, "2") : stores(shared, key, value));
        kill(getpid(), SIGKILL);
    }
    EXPECT(waitpid(child, &status, 0) == child && WIFSIGNALED(status) && WTERMSIG(status) == SIGKILL);
}

/* Another program writes a data file while the note says that all records are applied, but there are more records. The next call recovers the
 * log, and drops none of them. */
static void test_unnoted_and_written(void)
{
    static const uint8_t zero;
    static uint8_t before;
    for (int how = 0; how < 3; how++) {
        boddurci_shared *now = opened("written", 0);
        EXPECT(stores(now, "a", "0") && stores(now, "z", "0"));
        call_and_die("written", BODDURCI_NO_FLUSH, "z", "1");
        EXPECT(flushes(now) && tail_of("written") == 0);
        call_and_die("written", BODDURCI_NO_FLUSH, "a", "2");
        EXPECT(tail_of("written") != 0 && word_at("written", END) == word_at("written", APPLIED));
        uint64_t epoch = epoch_of_log("written");
        EXPECT(nanosleep(&(struct timespec){0, 30000000}, NULL) == 0);
        /* The same byte again, so that the records still belong to the files. */
        read_bytes("written", ".pag", 0, &before, 1);
        write_bytes("written", ".pag", 0, &zero, 1);
        write_bytes("written", ".pag", 0, &before, 1);
        EXPECT(nanosleep(&(struct timespec){0, 30000000}, NULL) == 0);
        call_and_die("written", how == 2 ? BODDURCI_NO_FLUSH : 0, how == 0 ? "a" : "b", how == 0 ? NULL : "1");
        EXPECT(epoch_of_log("written") != epoch && is_in_files("written", BODDURCI_READ_ONLY, "a", "2") && is_in_files("written", 0, "a", "2"));
        boddurci_close_shared(now);
    }
}

/* Changes a key by a child whose first write of .pag kills it or fails. */
static void change_and_fail(const char *base, uint32_t flags, const char *key, const char *value, int is_killed)
{
    int status;
    pid_t child = fork();
    if (child == 0) {
        boddurci_shared *shared = opened(base, flags);
        kills = is_killed;
        write_fails = !is_killed;
        EXPECT(store(shared, key, value) == BODDURCI_DONE && fault.system == EIO);
        _exit(0);
    }
    EXPECT(waitpid(child, &status, 0) == child && (is_killed ? WIFSIGNALED(status) : status == 0));
}

/* The record of an interrupted change, which has no note, in a log that is not shared. The next call recovers it, even if that call is killed
 * too. */
static void test_unshared(void)
{
    for (int how = 0; how < 8; how++) {
        char base[20];
        sprintf(base, "unshared%d", how);
        boddurci_shared *now = opened(base, 0);
        EXPECT(stores(now, "a", "1") && stores(now, "b", "1") && !is_log_shared(base));
        change_and_fail(base, 0, "a", "2", how % 2);
        if (how / 2 % 2)
            EXPECT(has(now, "a", "2"));
        change_and_fail(base, how / 4 ? BODDURCI_NO_FLUSH : 0, "b", "2", 1);
        EXPECT(has(now, "a", "2") && is_in_files(base, 0, "a", "2") && stores(now, "a", "3"));
        boddurci_close_shared(now);
    }
}

/* If a sync fails, the next call recovers the log: a later sync may succeed without the lost bytes. */
static void test_failed_sync(void)
{
    boddurci_shared *later = opened("sync", BODDURCI_NO_FLUSH), *now = opened("sync", 0);
    EXPECT(stores(later, "a", "1") && stores(later, "b", "1") && flushes(later) && tail_of("sync") == 0);
    uint64_t epoch = epoch_of_log("sync");
    sync_fails = 1;
    EXPECT(store(now, "a", "2") == BODDURCI_FILE_FAILED && !sync_fails && epoch != 0 && epoch_of_log("sync") == 0);
    unsigned long before = syncs;
    EXPECT(stores(later, "b", "2") && syncs > before && epoch_of_log("sync") != epoch && has(now, "b", "2") && flushes(now));
    /* A flush does not rely on its note if it cannot read the records after it. */
    uint8_t failed[8], last[8], zeros[4096] = {0};
    EXPECT(stores(later, "a", "3") && stores(later, "b", "3") && flushes(later) && stores(later, "a", "4"));
    off_t at = (off_t)(HEADER + word_at("sync", END) - sizeof last);
    read_bytes("sync", ".redo", at, last, sizeof last);
    write_bytes("sync", ".redo", at, zeros, sizeof last);
    before = syncs;
    EXPECT(flushes(later) && syncs > before);
    write_bytes("sync", ".redo", at, last, sizeof last);
    EXPECT(stores(later, "a", "5") && has(now, "a", "5"));
    /* Records were lost after a flush failed. */
    for (int i = 0; i < 40; i++)
        EXPECT(stores(later, "a", i % 2 ? "odd" : "even"));
    put_word(failed, word_at("sync", EPOCH));
    write_bytes("sync", ".lock", FAILED, failed, sizeof failed);
    write_bytes("sync", ".redo", (off_t)((HEADER + word_at("sync", END)) / 4096 * 4096), zeros, sizeof zeros);
    before = syncs;
    EXPECT(boddurci_shared_flush(later, &fault) == BODDURCI_FILE_FAILED && fault.system == EIO && syncs == before);
    boddurci_close_shared(now);
    boddurci_close_shared(later);
}

void test_records(void)
{
    test_kills();
    test_lost_records();
    test_unnoted();
    test_unnoted_blocks();
    test_holes();
    test_unnoted_and_written();
    test_unshared();
    test_failed_sync();
}
