/* Tests, from C, data files that another program changes while a base is open: the changes after which a save is refused, and saves that
 * insist. tests/c_library builds and runs it. The argument is a folder. */
#define _GNU_SOURCE
#include "boddurci_files.h"
#include <fcntl.h>
#include <pthread.h>
#include <signal.h>
#include <stdio.h>
#include <stdlib.h>
#include <string.h>
#include <sys/resource.h>
#include <sys/stat.h>
#include <sys/syscall.h>
#include <unistd.h>

enum { PAIRS = 1000, TICK = 20000 /* in microseconds, longer than a tick of the clock */ };

static unsigned long looked;
static boddurci_fault fault;

#define EXPECT(what)                                                                                                               \
    do {                                                                                                                           \
        looked++;                                                                                                                  \
        if (!(what)) {                                                                                                             \
            fprintf(stderr, "c_beside.c:%d: not so: %s (%s)\n", __LINE__, #what, fault.text);                                      \
            exit(1);                                                                                                               \
        }                                                                                                                          \
    } while (0)

static void write_text(const char *name, const char *bytes, size_t length)
{
    FILE *file = fopen(name, "wb");
    EXPECT(file != NULL && fwrite(bytes, 1, length, file) == length && fclose(file) == 0);
}

static size_t count_of(boddurci_base *base)
{
    size_t count = 0;
    EXPECT(boddurci_count(boddurci_take(base), &count) == BODDURCI_DONE);
    boddurci_give(base);
    return count;
}

static void store_one(boddurci_base *base, int i)
{
    char key[16];
    int length = snprintf(key, sizeof key, "key%d", i);
    EXPECT(boddurci_store(boddurci_take(base), (const uint8_t *)key, (size_t)length, (const uint8_t *)key, (size_t)length, 1) == BODDURCI_DONE);
    boddurci_give(base);
}

static boddurci_base *opened(const char *name, uint32_t flags)
{
    boddurci_base *base = boddurci_open_files(name, flags, &fault);
    EXPECT(base != NULL && fault.status == BODDURCI_DONE);
    return base;
}

/* Returns whether a redo file has its mark. It may then have saves that are not synced in the data files. */
static int is_marked(const char *name)
{
    FILE *file = fopen(name, "rb");
    int first = file != NULL ? fgetc(file) : 0;
    if (file != NULL)
        fclose(file);
    return first == 1;
}

static void delete_one(boddurci_base *base, const char *key)
{
    EXPECT(boddurci_delete(boddurci_take(base), (const uint8_t *)key, strlen(key)) == BODDURCI_DONE);
    boddurci_give(base);
}

/* Moves the locks of an open base away, or back. */
static void move_locks(const char *name, int is_back)
{
    static const char *const endings[2] = {"lock", "writer"};
    char path[32], away[32];
    for (int i = 0; i < 2; i++) {
        snprintf(path, sizeof path, "%s.%s", name, endings[i]);
        snprintf(away, sizeof away, "away.%s", endings[i]);
        EXPECT(is_back ? unlink(path) == 0 && rename(away, path) == 0 : rename(path, away) == 0);
    }
}

/* Returns the number of pairs that a reader finds without waiting for a lock. */
static size_t found_beside(const char *name, const char *lock)
{
    EXPECT(rename(lock, "away") == 0);
    boddurci_base *reader = opened(name, BODDURCI_READ_ONLY);
    size_t count = count_of(reader);
    boddurci_close_files(reader);
    EXPECT(rename("away", lock) == 0);
    return count;
}

/* Returns whether a file and its times are unchanged. */
static int is_untouched(const char *name, const struct stat *before)
{
    struct stat is;
    EXPECT(stat(name, &is) == 0);
    return is.st_ino == before->st_ino && is.st_size == before->st_size && is.st_mtim.tv_sec == before->st_mtim.tv_sec &&
           is.st_mtim.tv_nsec == before->st_mtim.tv_nsec && is.st_ctim.tv_sec == before->st_ctim.tv_sec && is.st_ctim.tv_nsec == before->st_ctim.tv_nsec;
}

/* Changes the files while a base has them open, without taking the locks, and in another clock tick than the last save of the base. */
static void change_beside(const char *name)
{
    EXPECT(usleep(TICK) == 0);
    move_locks(name, 0);
    boddurci_base *base = opened(name, 0);
    for (int i = 7000; i < 7100; i++)
        store_one(base, i);
    delete_one(base, "key1");
    delete_one(base, "key2");
    EXPECT(boddurci_save(base, &fault) == BODDURCI_DONE);
    boddurci_close_files(base);
    move_locks(name, 1);
}

static size_t value_of(boddurci_base *base, const char *key)
{
    uint8_t value[BODDURCI_VALUE_MOST];
    size_t length = 0;
    if (boddurci_fetch(boddurci_take(base), (const uint8_t *)key, strlen(key), value, sizeof value, &length) != BODDURCI_DONE)
        length = 0;
    boddurci_give(base);
    return length;
}

/* Returns whether a save is refused with this text, since another program has changed the files, and writes no file. */
static int is_refused(boddurci_base *base, const char *name, const char *text)
{
    char path[32];
    struct stat before[2];
    static const char *const endings[2] = {"pag", "dir"};
    for (int i = 0; i < 2; i++) {
        snprintf(path, sizeof path, "%s.%s", name, endings[i]);
        EXPECT(stat(path, &before[i]) == 0);
    }
    EXPECT(boddurci_save(base, &fault) == BODDURCI_CHANGED && fault.status == BODDURCI_CHANGED && fault.system == 0);
    for (int i = 0; i < 2; i++) {
        snprintf(path, sizeof path, "%s.%s", name, endings[i]);
        EXPECT(is_untouched(path, &before[i]));
    }
    snprintf(path, sizeof path, "%s.redo", name);
    EXPECT(!is_marked(path) && strstr(fault.text, "another program has changed the files: ") == fault.text);
    return strstr(fault.text, text) != NULL;
}

static int insists(boddurci_base *base)
{
    return boddurci_save_with(base, BODDURCI_INSIST, &fault) == BODDURCI_DONE && fault.status == BODDURCI_DONE && fault.system == 0;
}

/* A save is refused if another program has written the files, even if the base has changed nothing. A save that insists replaces the
 * contents of both files by those of the base, even if the base was opened with EMPTY. */
static void test_written_beside(void)
{
    boddurci_base *base = opened("visits", 0);
    size_t count = count_of(base);
    for (int changes = 0; changes < 2; changes++) {
        change_beside("visits");
        EXPECT(found_beside("visits", "visits.lock") == count + 98);
        if (changes)
            store_one(base, 3);
        for (int i = 0; i < 3; i++)
            EXPECT(is_refused(base, "visits", "BASE.pag ") && found_beside("visits", "visits.lock") == count + 98);
        EXPECT(count_of(base) == count && insists(base) && found_beside("visits", "visits.lock") == count);
        store_one(base, 3);
        delete_one(base, "key4");
        EXPECT(boddurci_save(base, &fault) == BODDURCI_DONE && found_beside("visits", "visits.lock") == count - 1);
        store_one(base, 4);
        EXPECT(boddurci_save(base, &fault) == BODDURCI_DONE && found_beside("visits", "visits.lock") == count);
    }
    boddurci_close_files(base);
    base = opened("visits", 0);
    EXPECT(count_of(base) == count && value_of(base, "key1") == 4 && value_of(base, "key7000") == 0);
    boddurci_close_files(base);
    base = opened("fresh", 0);
    for (int i = 0; i < 100; i++)
        store_one(base, i);
    EXPECT(boddurci_save(base, &fault) == BODDURCI_DONE);
    boddurci_close_files(base);
    base = opened("fresh", BODDURCI_EMPTY);
    store_one(base, 3);
    EXPECT(boddurci_save(base, &fault) == BODDURCI_DONE && found_beside("fresh", "fresh.lock") == 1);
    store_one(base, 4);
    EXPECT(boddurci_save(base, &fault) == BODDURCI_DONE && found_beside("fresh", "fresh.lock") == 2);
    boddurci_close_files(base);
}

/* `put_byte` writes one byte of a file, as another program would, and `byte_at` reads one. */
static void put_byte(const char *name, off_t at, char byte)
{
    int file = open(name, O_WRONLY);
    EXPECT(file >= 0 && usleep(TICK) == 0 && pwrite(file, &byte, 1, at) == 1 && close(file) == 0);
}

static char byte_at(const char *name, off_t at)
{
    char byte = 0;
    int file = open(name, O_RDONLY);
    EXPECT(file >= 0 && pread(file, &byte, 1, at) == 1 && close(file) == 0);
    return byte;
}

/* Tests which writes of another program a save notices, and which data stays. That program writes one byte of a file, and sometimes sets
 * the time of the file back. */
static void test_bytes_beside(void)
{
    struct stat found;
    boddurci_base *base = opened("bytes", 0);
    for (int i = 0; i < PAIRS; i++)
        store_one(base, i);
    EXPECT(boddurci_save(base, &fault) == BODDURCI_DONE && stat("bytes.pag", &found) == 0);
    for (int kind = 0; kind < 6; kind++) {
        const struct timespec before[2] = {{0, UTIME_OMIT}, found.st_mtim};
        const char *name = kind < 4 ? "bytes.pag" : "bytes.dir";
        off_t at = kind < 4 ? 1020 : 0;
        char was = byte_at(name, at);
        if (kind % 2 == 0)
            store_one(base, 5000 + kind);
        put_byte(name, at, (char)(was ^ 1));
        if (kind >= 2 && kind < 4)
            EXPECT(utimensat(AT_FDCWD, name, before, 0) == 0);
        if (kind == 2)
            EXPECT(boddurci_save(base, &fault) == BODDURCI_CHANGED || byte_at(name, 1020) == was);
        else
            EXPECT(is_refused(base, "bytes", kind % 2 == 0 ? " was written" : kind == 3 ? "page 0 of BASE.pag has other bytes" : "BASE."));
        EXPECT(insists(base) && boddurci_save(base, &fault) == BODDURCI_DONE && stat("bytes.pag", &found) == 0);
    }
    boddurci_close_files(base);
    base = opened("bytes", BODDURCI_READ_ONLY);
    EXPECT(count_of(base) == PAIRS + 3);
    boddurci_close_files(base);
}

/* Replaces the function of the C library, for Boddurci too. If `written_in_sync` is not NULL, simulates another program that writes this
 * file during a sync. */
static const char *written_in_sync;
static int omits_syncs;

int fdatasync(int file)
{
    const char *name = written_in_sync;
    written_in_sync = NULL;
    if (omits_syncs)
        return 0;
    if (name != NULL)
        put_byte(name, 1020, (char)(byte_at(name, 1020) ^ 1));
    return fsync(file);
}

/* A write during the sync of a save comes too late for that save, and is a change for the next one. */
static void test_during(void)
{
    boddurci_base *base = opened("during", 0);
    for (int i = 0; i < PAIRS; i++)
        store_one(base, i);
    EXPECT(boddurci_save(base, &fault) == BODDURCI_DONE);
    for (int i = 0; i < 4; i++) {
        delete_one(base, i % 2 ? "key500" : "key501");
        written_in_sync = "during.pag";
        EXPECT(boddurci_save(base, &fault) == BODDURCI_DONE && fault.system == 0 && written_in_sync == NULL);
        EXPECT(is_refused(base, "during", "BASE.pag or BASE.dir was written during the last save") && insists(base));
        store_one(base, i % 2 ? 500 : 501);
        EXPECT(boddurci_save(base, &fault) == BODDURCI_DONE);
    }
    boddurci_close_files(base);
    base = opened("during", 0);
    EXPECT(count_of(base) == PAIRS);
    boddurci_close_files(base);
}

/* Replaces the function of the C library, for Boddurci too, and counts its calls. */
static unsigned looks;

int statx(int folder, const char *restrict name, int how, unsigned mask, struct statx *restrict found)
{
    looks++;
    return (int)syscall(SYS_statx, folder, name, how, mask, found);
}

/* Saves until a save makes few calls of statx, since it is in the same clock tick as the previous save. Such a save reads the time of the
 * folder by another call, and the state of each data file twice. */
static void save_quickly(boddurci_base *base)
{
    unsigned least = 100;
    for (int i = 0; i < PAIRS && least > 4; i++) {
        store_one(base, i);
        looks = 0;
        EXPECT(boddurci_save(base, &fault) == BODDURCI_DONE);
        least = looks < least ? looks : least;
    }
    EXPECT(least <= 4);
}

/* If a file loses its name right after a quick save, the next save notices that, even if the name now leads to another file. Other names
 * in the folder do not matter. */
static void test_names(void)
{
    static const char *const names[] = {"looks.pag", "looks.dir", "looks.lock", "looks.writer"};
    boddurci_base *base = opened("looks", 0);
    for (int i = 0; i < PAIRS; i++)
        store_one(base, i);
    EXPECT(boddurci_save(base, &fault) == BODDURCI_DONE && usleep(2 * TICK) == 0);
    omits_syncs = 1;
    for (int is_copied = 0; is_copied < 2; is_copied++)
        for (int i = 0; i < 4; i++) {
            save_quickly(base);
            store_one(base, i);
            EXPECT(rename(names[i], "away") == 0);
            if (is_copied)
                write_text(names[i], "", 0);
            EXPECT(boddurci_save(base, &fault) == BODDURCI_MOVED);
            EXPECT(rename("away", names[i]) == 0 && boddurci_save(base, &fault) == BODDURCI_DONE && usleep(2 * TICK) == 0);
        }
    save_quickly(base);
    write_text("other", "", 0);
    store_one(base, 5);
    EXPECT(boddurci_save(base, &fault) == BODDURCI_DONE && unlink("other") == 0 && unlink("looks.redo") == 0);
    store_one(base, 6);
    EXPECT(boddurci_save(base, &fault) == BODDURCI_DONE && is_marked("looks.redo"));
    omits_syncs = 0;
    boddurci_close_files(base);
}

/* A new mode, link or time is not a change, nor is a new empty file. A new file with bytes is a change. */
static void test_not_changed(void)
{
    boddurci_base *base = opened("same", 0);
    write_text("same.pag", "", 0);
    write_text("same.dir", "", 0);
    store_one(base, 1);
    EXPECT(boddurci_save(base, &fault) == BODDURCI_DONE);
    for (int i = 0; i < 4; i++) {
        EXPECT(usleep(TICK) == 0 && chmod("same.pag", i % 2 ? 0600 : 0640) == 0 && chmod("same.dir", 0640) == 0);
        EXPECT(i != 2 || (link("same.pag", "same.link") == 0 && unlink("same.link") == 0));
        if (i % 2)
            store_one(base, 2 + i);
        else
            EXPECT(utimensat(AT_FDCWD, "same.pag", NULL, 0) == 0);
        EXPECT(boddurci_save(base, &fault) == BODDURCI_DONE);
    }
    store_one(base, 10);
    EXPECT(usleep(TICK) == 0 && utimensat(AT_FDCWD, "same.pag", NULL, 0) == 0 && is_refused(base, "same", "BASE.pag was written") && insists(base));
    boddurci_close_files(base);
    for (uint32_t flags = 0; flags <= BODDURCI_EMPTY; flags += BODDURCI_EMPTY) {
        EXPECT((unlink("made.pag") == 0 && unlink("made.dir") == 0) || flags == 0);
        base = opened("made", flags);
        store_one(base, 1);
        move_locks("made", 0);
        boddurci_base *other = opened("made", 0);
        store_one(other, 2);
        EXPECT(boddurci_save(other, &fault) == BODDURCI_DONE);
        boddurci_close_files(other);
        write_text("made.dir", "", 0);
        move_locks("made", 1);
        EXPECT(is_refused(base, "made", "BASE.pag was made, with 1024 bytes") && insists(base) && count_of(base) == 1);
        boddurci_close_files(base);
    }
}

/* A save that insists and fails has overwritten nothing, so the next save must insist too. */
static void test_insisting_in_vain(void)
{
    struct rlimit all, few;
    EXPECT(getrlimit(RLIMIT_FSIZE, &all) == 0 && signal(SIGXFSZ, SIG_IGN) != SIG_ERR);
    few = all;
    few.rlim_cur = 1024;
    boddurci_base *base = opened("visits", 0);
    size_t count = count_of(base);
    change_beside("visits");
    EXPECT(setrlimit(RLIMIT_FSIZE, &few) == 0 && boddurci_save_with(base, BODDURCI_INSIST, &fault) == BODDURCI_FILE_FAILED);
    EXPECT(setrlimit(RLIMIT_FSIZE, &all) == 0 && is_refused(base, "visits", "BASE.pag ") && found_beside("visits", "visits.lock") == count + 98);
    EXPECT(insists(base) && found_beside("visits", "visits.lock") == count);
    boddurci_close_files(base);
}

enum { SAVERS = 8, SAVES = 200 };

struct saver {
    boddurci_base *base;
    int number;
    uint32_t flags, status;
    boddurci_fault fault;
};

/* Stores and saves, with pauses of some ticks. A save never takes a write of its own base for a write of another program. */
static void *save_often(void *given)
{
    struct saver *saver = given;
    char key[16];
    for (int i = 0; i < SAVES && saver->status == BODDURCI_DONE; i++) {
        size_t length = (size_t)snprintf(key, sizeof key, "key%d", saver->number * SAVES + i);
        saver->status = boddurci_store(boddurci_take(saver->base), (const uint8_t *)key, length, (const uint8_t *)key, length, 1);
        boddurci_give(saver->base);
        if (saver->status == BODDURCI_DONE)
            saver->status = boddurci_save(saver->base, &saver->fault);
        if (i % 16 == saver->number)
            usleep((useconds_t)(1000 * (i % 7)));
    }
    return NULL;
}

/* Threads save a base for some ticks, in several rounds, each on a newly opened base. No save is refused. */
static void test_own(void)
{
    pthread_t threads[SAVERS];
    struct saver savers[SAVERS];
    for (int round = 0; round < 4; round++) {
        boddurci_base *base = opened("own", 0);
        for (int i = 0; i < SAVERS; i++) {
            savers[i] = (struct saver){.base = base, .number = round + i};
            EXPECT(pthread_create(&threads[i], NULL, save_often, &savers[i]) == 0);
        }
        for (int i = 0; i < SAVERS; i++)
            EXPECT(pthread_join(threads[i], NULL) == 0 && savers[i].status == BODDURCI_DONE && savers[i].fault.system == 0);
        EXPECT(count_of(base) == (size_t)(SAVERS + round) * SAVES);
        for (int i = 0; i < 300; i++) {
            store_one(base, i);
            delete_one(base, i % 2 ? "key1" : "key0");
            store_one(base, 1);
            store_one(base, 0);
            EXPECT(usleep((useconds_t)(i % 50 * 100)) == 0 && boddurci_save(base, &fault) == BODDURCI_DONE && fault.system == 0);
        }
        boddurci_close_files(base);
    }
}

static void *save_once(void *given)
{
    struct saver *saver = given;
    saver->status = boddurci_save_with(saver->base, saver->flags, &saver->fault);
    return NULL;
}

/* Threads save files that another program has changed. All saves are refused until one insists, and none after that. */
static void test_together(void)
{
    pthread_t threads[SAVERS];
    struct saver savers[SAVERS];
    boddurci_base *base = opened("visits", 0);
    size_t count = count_of(base);
    change_beside("visits");
    for (int insisting = 0; insisting < 2; insisting++) {
        for (int i = 0; i < SAVERS; i++) {
            savers[i] = (struct saver){.base = base, .flags = insisting && i == SAVERS / 2 ? BODDURCI_INSIST : 0};
            EXPECT(pthread_create(&threads[i], NULL, save_once, &savers[i]) == 0);
        }
        for (int i = 0; i < SAVERS; i++) {
            EXPECT(pthread_join(threads[i], NULL) == 0 && (savers[i].status == BODDURCI_CHANGED || insisting));
            EXPECT(savers[i].status == savers[i].fault.status && (savers[i].flags == 0 || savers[i].status == BODDURCI_DONE));
        }
        EXPECT(found_beside("visits", "visits.lock") == (insisting ? count : count + 98));
    }
    EXPECT(boddurci_save(base, &fault) == BODDURCI_DONE);
    boddurci_close_files(base);
}

int main(int argc, char **argv)
{
    if (argc != 2 || chdir(argv[1]) != 0)
        return 2;
    boddurci_base *base = opened("visits", 0);
    for (int i = 0; i < PAIRS; i++)
        store_one(base, i);
    EXPECT(boddurci_save(base, &fault) == BODDURCI_DONE);
    boddurci_close_files(base);
    test_written_beside();
    test_bytes_beside();
    test_names();
    test_during();
    test_not_changed();
    test_insisting_in_vain();
    test_own();
    test_together();
    printf("%lu answers as expected\n", looked);
    return 0;
}
