/* Tests databases in files, from C: every call and every status of boddurci_files.h. The argument is a folder. tests/c_library builds and
 * runs it. It leaves the database `visits`, of 1,000 pairs. */
#define _POSIX_C_SOURCE 200809L
#define _DEFAULT_SOURCE
#include "boddurci_files.h"
#include <errno.h>
#include <fcntl.h>
#include <pthread.h>
#include <signal.h>
#include <stdio.h>
#include <stdlib.h>
#include <string.h>
#include <sys/file.h>
#include <sys/resource.h>
#include <sys/stat.h>
#include <sys/syscall.h>
#include <sys/time.h>
#include <sys/wait.h>
#include <time.h>
#include <unistd.h>

enum { PAIRS = 1000 };

static unsigned long looked;
static boddurci_fault fault;

#define EXPECT(what)                                                                                                               \
    do {                                                                                                                           \
        looked++;                                                                                                                  \
        if (!(what)) {                                                                                                             \
            fprintf(stderr, "c_files.c:%d: not so: %s (%s)\n", __LINE__, #what, fault.text);                                       \
            exit(1);                                                                                                               \
        }                                                                                                                          \
    } while (0)

/* Returns whether an opening fails with this status. */
static int fails(const char *name, uint32_t flags, uint32_t status)
{
    return boddurci_open_files(name, flags, &fault) == NULL && fault.status == status && fault.text[0] != 0;
}

struct opening {
    const char *name;
    uint32_t flags;
    int is_locked;
};

static void *open_there(void *what)
{
    boddurci_fault told;
    struct opening *opening = what;
    boddurci_base *base = boddurci_open_files(opening->name, opening->flags, &told);
    opening->is_locked = base == NULL && told.status == BODDURCI_LOCKED && told.text[0] != 0;
    boddurci_close_files(base);
    return NULL;
}

/* Returns whether another thread that does not wait finds the lock taken. */
static int is_locked(const char *name, uint32_t more)
{
    pthread_t thread;
    struct opening opening = {name, BODDURCI_NO_WAIT | more, 0};
    EXPECT(pthread_create(&thread, NULL, open_there, &opening) == 0 && pthread_join(thread, NULL) == 0);
    return opening.is_locked;
}

static boddurci_base *opened(const char *name, uint32_t flags);

static void *open_and_end(void *name)
{
    return opened(name, 0);
}

/* If a thread that has a base open has ended, the base does not count as open in a new thread, even if the system gives the new thread the
 * same number. */
static void test_ended_thread(void)
{
    pthread_t thread;
    void *base;
    EXPECT(pthread_create(&thread, NULL, open_and_end, "visits") == 0 && pthread_join(thread, &base) == 0);
    for (int i = 0; i < 3; i++)
        EXPECT(is_locked("visits", 0) && fails("visits", BODDURCI_NO_WAIT, BODDURCI_LOCKED));
    boddurci_close_files(base);
}

static void write_text(const char *name, const char *bytes, size_t length)
{
    FILE *file = fopen(name, "wb");
    EXPECT(file != NULL && fwrite(bytes, 1, length, file) == length && fclose(file) == 0);
}

static size_t count_of(boddurci_base *base)
{
    size_t count = 0;
    EXPECT(boddurci_count(boddurci_take(base), &count) == BODDURCI_DONE);
    boddurci_give(base);
    return count;
}

static void store_one(boddurci_base *base, int i)
{
    char key[16];
    int length = snprintf(key, sizeof key, "key%d", i);
    EXPECT(boddurci_store(boddurci_take(base), (const uint8_t *)key, (size_t)length, (const uint8_t *)key, (size_t)length, 1) == BODDURCI_DONE);
    boddurci_give(base);
}

static boddurci_base *opened(const char *name, uint32_t flags)
{
    boddurci_base *base = boddurci_open_files(name, flags, &fault);
    EXPECT(base != NULL && fault.status == BODDURCI_DONE);
    return base;
}

static int is_there(const char *name)
{
    struct stat found;
    return lstat(name, &found) == 0;
}

/* Returns whether a redo file has its mark. It may then have saves that are not synced in the data files. */
static int is_marked(const char *name)
{
    FILE *file = fopen(name, "rb");
    int first = file != NULL ? fgetc(file) : 0;
    if (file != NULL)
        fclose(file);
    return first == 1;
}

static void delete_one(boddurci_base *base, const char *key)
{
    EXPECT(boddurci_delete(boddurci_take(base), (const uint8_t *)key, strlen(key)) == BODDURCI_DONE);
    boddurci_give(base);
}

/* Returns the number of pairs that a reader finds without waiting for a lock. */
static size_t found_beside(const char *name, const char *lock)
{
    EXPECT(rename(lock, "away") == 0);
    boddurci_base *reader = opened(name, BODDURCI_READ_ONLY);
    size_t count = count_of(reader);
    boddurci_close_files(reader);
    EXPECT(rename("away", lock) == 0);
    return count;
}

static void test_new(void)
{
    EXPECT(fails("visits", BODDURCI_MUST_EXIST, BODDURCI_FILE_FAILED) && fault.system == ENOENT);
    EXPECT(fails("no/such/folder", 0, BODDURCI_FILE_FAILED) && fault.system == ENOENT);
    boddurci_base *base = opened("visits", 0);
    EXPECT(!is_there("visits.pag") && is_there("visits.lock") && is_there("visits.writer"));
    EXPECT(fails("visits", BODDURCI_READ_ONLY, BODDURCI_OPEN_HERE) && is_locked("visits", BODDURCI_READ_ONLY));
    for (int i = 0; i < PAIRS; i++)
        store_one(base, i);
    EXPECT(boddurci_save(base, &fault) == BODDURCI_DONE && is_there("visits.pag") && is_marked("visits.redo"));
    EXPECT(fails("visits", 0, BODDURCI_OPEN_HERE) && fails("visits", BODDURCI_NO_WAIT, BODDURCI_OPEN_HERE));
    EXPECT(is_locked("visits", 0) && !is_locked("visits", BODDURCI_READ_ONLY));
    /* Unsaved data is lost. */
    store_one(base, PAIRS);
    boddurci_close_files(base);
    EXPECT(is_there("visits.redo") && !is_marked("visits.redo"));
    boddurci_close_files(NULL);
}

/* A reader holds no lock, and keeps the data that it read. A save does not replace the files by new ones. */
static void test_reader(void)
{
    struct stat before, after;
    boddurci_base *reader = opened("visits", BODDURCI_READ_ONLY);
    EXPECT(count_of(reader) == PAIRS && boddurci_save(reader, &fault) == BODDURCI_NO_SAVE);
    boddurci_base *base = opened("visits", BODDURCI_NO_WAIT | BODDURCI_MUST_EXIST);
    EXPECT(count_of(base) == PAIRS);
    store_one(base, PAIRS);
    EXPECT(chmod("visits.pag", 0640) == 0 && stat("visits.pag", &before) == 0 && boddurci_save(base, &fault) == BODDURCI_DONE);
    EXPECT(stat("visits.pag", &after) == 0 && after.st_mode == before.st_mode && after.st_ino == before.st_ino);
    EXPECT(count_of(reader) == PAIRS);
    boddurci_close_files(reader);
    boddurci_close_files(base);
}

/* A failed save does not change the files, even if the redo file of an open log is removed. */
static void test_failing(void)
{
    boddurci_base *base = opened("visits", 0);
    delete_one(base, "key0");
    EXPECT(unlink("visits.redo") == 0 && mkdir("visits.redo", 0777) == 0 && boddurci_save(base, &fault) == BODDURCI_UNSAFE);
    EXPECT(strcmp(fault.text, "visits.redo is a folder, and is not taken") == 0 && rmdir("visits.redo") == 0);
    EXPECT(symlink("elsewhere", "visits.redo") == 0 && boddurci_save(base, &fault) == BODDURCI_UNSAFE);
    EXPECT(strcmp(fault.text, "visits.redo is a symbolic link, and is not taken") == 0 && unlink("visits.redo") == 0);
    EXPECT(!is_there("elsewhere") && found_beside("visits", "visits.lock") == PAIRS + 1);
    EXPECT(boddurci_save(base, NULL) == BODDURCI_DONE && is_marked("visits.redo"));
    EXPECT(found_beside("visits", "visits.lock") == PAIRS);
    store_one(base, PAIRS + 1);
    EXPECT(rename("visits.redo", "former") == 0 && mkdir("visits.redo", 0777) == 0 && boddurci_save(base, &fault) == BODDURCI_UNSAFE);
    EXPECT(rmdir("visits.redo") == 0 && boddurci_save(base, &fault) == BODDURCI_DONE && is_marked("visits.redo") && unlink("former") == 0);
    delete_one(base, "key1001");
    EXPECT(boddurci_save(base, &fault) == BODDURCI_DONE);
    boddurci_close_files(base);
}

/* Without a change nothing is written. An empty database makes no files. */
static void test_unchanged(void)
{
    static const struct timespec long_ago[2] = {{1000, 0}, {1000, 0}};
    struct stat found;
    boddurci_base *base = opened("visits", 0);
    EXPECT(utimensat(AT_FDCWD, "visits.pag", long_ago, 0) == 0 && boddurci_save(base, &fault) == BODDURCI_DONE);
    EXPECT(stat("visits.pag", &found) == 0 && found.st_mtime == 1000);
    boddurci_close_files(base);
    base = opened("none", 0);
    EXPECT(boddurci_save(base, &fault) == BODDURCI_DONE && !is_there("none.pag") && !is_there("none.dir") && !is_there("none.redo"));
    boddurci_close_files(base);
}

/* Returns whether a file and its time are unchanged. */
static int is_untouched(const char *name, const struct stat *before)
{
    struct stat is;
    EXPECT(stat(name, &is) == 0);
    return is.st_ino == before->st_ino && is.st_size == before->st_size && is.st_mtim.tv_sec == before->st_mtim.tv_sec &&
           is.st_mtim.tv_nsec == before->st_mtim.tv_nsec && is.st_ctim.tv_sec == before->st_ctim.tv_sec && is.st_ctim.tv_nsec == before->st_ctim.tv_nsec;
}

/* The first save removes zeros after the ends of the files, as another program may leave them. */
static void test_ends(void)
{
    struct stat before[2], found;
    boddurci_base *base;
    EXPECT(stat("visits.pag", &before[0]) == 0 && stat("visits.dir", &before[1]) == 0);
    EXPECT(truncate("visits.pag", before[0].st_size + 3 * 1024) == 0);
    EXPECT(truncate("visits.dir", before[1].st_size + 2 * 4096) == 0);
    base = opened("visits", 0);
    EXPECT(boddurci_save(base, &fault) == BODDURCI_DONE);
    boddurci_close_files(base);
    EXPECT(stat("visits.pag", &found) == 0 && found.st_size == before[0].st_size);
    EXPECT(stat("visits.dir", &found) == 0 && found.st_size == before[1].st_size);
}

/* A save without a change writes no file, neither after another save nor after a store of an existing pair. */
static void test_untouched(void)
{
    struct stat pages, directory, redo, folder;
    boddurci_base *base = opened("visits", 0);
    store_one(base, 5000);
    EXPECT(boddurci_save(base, &fault) == BODDURCI_DONE);
    delete_one(base, "key5000");
    EXPECT(boddurci_save(base, &fault) == BODDURCI_DONE);
    EXPECT(stat("visits.pag", &pages) == 0 && stat("visits.dir", &directory) == 0 && stat("visits.redo", &redo) == 0 && stat(".", &folder) == 0);
    for (int i = 0; i < 3; i++) {
        EXPECT(boddurci_save(base, &fault) == BODDURCI_DONE && fault.system == 0 && is_untouched("visits.redo", &redo));
        EXPECT(is_untouched("visits.pag", &pages) && is_untouched("visits.dir", &directory) && is_untouched(".", &folder));
        store_one(base, 5000);
        delete_one(base, "key5000");
    }
    boddurci_close_files(base);
}

static size_t value_of(boddurci_base *base, const char *key)
{
    uint8_t value[BODDURCI_VALUE_MOST];
    size_t length = 0;
    if (boddurci_fetch(boddurci_take(base), (const uint8_t *)key, strlen(key), value, sizeof value, &length) != BODDURCI_DONE)
        length = 0;
    boddurci_give(base);
    return length;
}

/* The linker replaces boddurci_mark by this, to check that no pointer argument of the call is NULL. */
uint32_t __real_boddurci_mark(boddurci *db, const uint32_t *numbers, size_t count);
uint32_t __wrap_boddurci_mark(boddurci *db, const uint32_t *numbers, size_t count);

static unsigned long marked;

uint32_t __wrap_boddurci_mark(boddurci *db, const uint32_t *numbers, size_t count)
{
    marked++;
    EXPECT(numbers != NULL);
    return __real_boddurci_mark(db, numbers, count);
}

/* Replaces the function of the C library, for Boddurci too. After a number of calls it limits the length of files to 1,024 bytes. */
static int syncs_until_limit;

static void set_limit(rlim_t most)
{
    struct rlimit limit;
    EXPECT(getrlimit(RLIMIT_FSIZE, &limit) == 0);
    limit.rlim_cur = most < limit.rlim_max ? most : limit.rlim_max;
    EXPECT(setrlimit(RLIMIT_FSIZE, &limit) == 0);
}

int fdatasync(int file)
{
    if (syncs_until_limit != 0 && --syncs_until_limit == 0)
        set_limit(1024);
    return fsync(file);
}

static boddurci_base *with_many(const char *name, int from)
{
    boddurci_base *base = opened(name, 0);
    for (int i = from; i < from + 40; i++)
        store_one(base, i);
    return base;
}

/* Saves in a child that SIGXFSZ would kill. The limit on the length of files is set at the sync with this number, or before the save if the
 * number is 0. Returns the status of the save, or -1 if a signal killed the child. The signal mask must not change. */
static int save_in_child(const char *name, int sync, int was_held)
{
    int status;
    pid_t child = fork();
    if (child == 0) {
        sigset_t only, mask;
        sigemptyset(&only);
        sigaddset(&only, SIGXFSZ);
        signal(SIGXFSZ, SIG_DFL);
        if (was_held && (sigprocmask(SIG_BLOCK, &only, NULL) != 0 || raise(SIGXFSZ) != 0))
            _exit(99);
        boddurci_base *base = with_many(name, 9000);
        syncs_until_limit = sync;
        if (sync == 0)
            set_limit(1024);
        uint32_t saved = boddurci_save(base, &fault);
        EXPECT(saved == BODDURCI_DONE || (saved == BODDURCI_FILE_FAILED && fault.system == EFBIG));
        EXPECT(sigprocmask(SIG_BLOCK, NULL, &mask) == 0 && sigismember(&mask, SIGXFSZ) == was_held);
        EXPECT(sigpending(&mask) == 0 && sigismember(&mask, SIGXFSZ) == was_held);
        boddurci_close_files(base);
        _exit(saved != BODDURCI_DONE ? 1 : fault.system == EFBIG ? 2 : 0);
    }
    EXPECT(child > 0 && waitpid(child, &status, 0) == child);
    return WIFEXITED(status) ? WEXITSTATUS(status) : -1;
}

/* A limit on the length of files is set at some time during a save. The save fails and changes nothing, or it is durable in the redo file.
 * No process is killed. If an interrupted save cannot be recovered under the limit, the opening fails. */
static void test_limited(void)
{
    int seen[3] = {0, 0, 0};
    for (int sync = 0; sync < 12; sync++) {
        boddurci_base *base = with_many("limited", 0);
        EXPECT(boddurci_save(base, &fault) == BODDURCI_DONE);
        boddurci_close_files(base);
        int told = save_in_child("limited", sync, sync % 2);
        EXPECT(told >= 0 && told <= 2);
        seen[told]++;
        EXPECT(is_marked("limited.redo") == (told == 2));
        if (told == 2) {
            set_limit(1024);
            EXPECT(fails("limited", 0, BODDURCI_FILE_FAILED) && fault.system == EFBIG && is_marked("limited.redo"));
            set_limit(RLIM_INFINITY);
        }
        base = opened("limited", 0);
        EXPECT(count_of(base) == (told == 1 ? 40 : 80) && is_marked("limited.redo"));
        boddurci_close_files(base);
        EXPECT(!is_marked("limited.redo"));
        EXPECT(unlink("limited.pag") == 0 && (unlink("limited.dir") == 0 || errno == ENOENT));
    }
    EXPECT(seen[0] != 0 && seen[1] != 0 && seen[2] != 0);
    /* The first save fails, although no page has changed: there is no page to mark. */
    boddurci_base *base = with_many("limited", 0);
    EXPECT(boddurci_save(base, &fault) == BODDURCI_DONE);
    boddurci_close_files(base);
    EXPECT(truncate("limited.dir", 8192) == 0 && signal(SIGXFSZ, SIG_IGN) != SIG_ERR);
    base = opened("limited", 0);
    set_limit(10);
    marked = 0;
    EXPECT(boddurci_save(base, &fault) == BODDURCI_FILE_FAILED && fault.system == EFBIG && marked == 1);
    set_limit(RLIM_INFINITY);
    EXPECT(boddurci_save(base, &fault) == BODDURCI_DONE);
    boddurci_close_files(base);
}

/* If a save has planned changes and could not write them, the next save has these changes. */
static void test_written_later(void)
{
    struct rlimit all, few;
    EXPECT(getrlimit(RLIMIT_FSIZE, &all) == 0 && signal(SIGXFSZ, SIG_IGN) != SIG_ERR);
    boddurci_base *base = opened("visits", 0);
    size_t count = count_of(base);
    for (int i = 8000; i < 8040; i++)
        store_one(base, i);
    few = all;
    few.rlim_cur = 1024;
    for (int i = 0; i < 2; i++) {
        EXPECT(setrlimit(RLIMIT_FSIZE, &few) == 0 && boddurci_save(base, &fault) == BODDURCI_FILE_FAILED && fault.system == EFBIG);
        EXPECT(setrlimit(RLIMIT_FSIZE, &all) == 0 && found_beside("visits", "visits.lock") == count);
        store_one(base, 8040 + i);
    }
    EXPECT(boddurci_save(base, &fault) == BODDURCI_DONE && found_beside("visits", "visits.lock") == count + 42);
    char key[16];
    for (int i = 8000; i < 8042; i++) {
        snprintf(key, sizeof key, "key%d", i);
        delete_one(base, key);
    }
    EXPECT(boddurci_save(base, &fault) == BODDURCI_DONE);
    boddurci_close_files(base);
}

enum { WRITERS = 3, WRITTEN = 2000 };

struct writer {
    boddurci_base *base;
    int from;
};

static void *store_many(void *given)
{
    struct writer *writer = given;
    for (int i = writer->from; i < writer->from + WRITTEN; i++) {
        char key[16];
        int length = snprintf(key, sizeof key, "key%d", i);
        if (boddurci_store(boddurci_take(writer->base), (const uint8_t *)key, (size_t)length, (const uint8_t *)key, (size_t)length, 1) != BODDURCI_DONE)
            abort();
        boddurci_give(writer->base);
    }
    return NULL;
}

/* Threads store while another thread saves. The last save has all their changes. */
static void test_meanwhile(void)
{
    pthread_t threads[WRITERS];
    struct writer writers[WRITERS];
    boddurci_base *base = opened("busy", 0);
    for (int i = 0; i < WRITERS; i++) {
        writers[i] = (struct writer){base, i * WRITTEN};
        EXPECT(pthread_create(&threads[i], NULL, store_many, &writers[i]) == 0);
    }
    for (int i = 0; i < 20; i++)
        EXPECT(boddurci_save(base, &fault) == BODDURCI_DONE && fault.system == 0);
    for (int i = 0; i < WRITERS; i++)
        EXPECT(pthread_join(threads[i], NULL) == 0);
    EXPECT(boddurci_save(base, &fault) == BODDURCI_DONE && count_of(base) == WRITERS * WRITTEN);
    boddurci_close_files(base);
    base = opened("busy", BODDURCI_READ_ONLY);
    EXPECT(count_of(base) == WRITERS * WRITTEN);
    boddurci_close_files(base);
}

/* A save writes the file that a link leads to, and the link stays. */
static void test_links(void)
{
    struct stat found;
    EXPECT(rename("visits.pag", "pages") == 0 && symlink("pages", "visits.pag") == 0);
    boddurci_base *base = opened("visits", 0);
    EXPECT(count_of(base) == PAIRS);
    store_one(base, 5000);
    EXPECT(boddurci_save(base, &fault) == BODDURCI_DONE && lstat("visits.pag", &found) == 0 && S_ISLNK(found.st_mode));
    EXPECT(found_beside("visits", "visits.lock") == PAIRS + 1);
    delete_one(base, "key5000");
    EXPECT(boddurci_save(base, &fault) == BODDURCI_DONE);
    boddurci_close_files(base);
    EXPECT(unlink("visits.pag") == 0 && rename("pages", "visits.pag") == 0);
}

/* A base whose files are links to those of another base uses the locks of that base. Links to two bases, or to missing files, are
 * refused. */
static void test_other_base(void)
{
    EXPECT(symlink("visits.pag", "linked.pag") == 0);
    EXPECT(fails("linked", 0, BODDURCI_FILE_FAILED) && fault.system == 0);
    EXPECT(symlink("visits.dir", "linked.dir") == 0);
    boddurci_base *base = opened("linked", 0);
    EXPECT(count_of(base) == PAIRS && !is_there("linked.lock"));
    EXPECT(is_locked("visits", 0));
    boddurci_close_files(base);
    EXPECT(symlink("nowhere", "astray.pag") == 0 && fails("astray", 0, BODDURCI_FILE_FAILED) && fault.system == ENOENT);
}

static void test_bytes(void)
{
    struct stat found;
    write_text("bad.pag", "no pages", 8);
    EXPECT(fails("bad", 0, BODDURCI_BAD_FILES) && strcmp(fault.text, "bad files: PagLength") == 0);
    boddurci_base *base = opened("bad", BODDURCI_EMPTY);
    EXPECT(count_of(base) == 0 && boddurci_save(base, &fault) == BODDURCI_DONE && stat("bad.pag", &found) == 0 && found.st_size == 0);
    boddurci_close_files(base);
    EXPECT(truncate("bad.pag", 1073741825) == 0 && fails("bad", 0, BODDURCI_TOO_LONG) && unlink("bad.pag") == 0);
    base = opened("wide", BODDURCI_WIDE | BODDURCI_UNSIGNED_KEYS);
    store_one(base, 1);
    EXPECT(boddurci_save(base, &fault) == BODDURCI_DONE && stat("wide.pag", &found) == 0 && found.st_size == 8192);
    boddurci_close_files(base);
}

/* A database with any number of small pages is not opened with wide pages, and does not change. A wide database is opened. */
static void test_other_size(void)
{
    char key[16];
    for (int count = 500; count < 1100; count += 30) {
        struct stat found;
        boddurci_base *base = opened("size", BODDURCI_EMPTY);
        for (int i = 0; i < count; i++)
            store_one(base, i);
        EXPECT(boddurci_save(base, &fault) == BODDURCI_DONE && stat("size.pag", &found) == 0 && found.st_size >= 8192);
        boddurci_close_files(base);
        EXPECT(truncate("size.pag", (found.st_size + 8191) / 8192 * 8192) == 0);
        EXPECT(fails("size", BODDURCI_WIDE, BODDURCI_OTHER_SIZE) && fails("size", BODDURCI_WIDE | BODDURCI_READ_ONLY, BODDURCI_OTHER_SIZE));
        base = boddurci_open_files("size", BODDURCI_WIDE | BODDURCI_ANY_SIZE, &fault);
        EXPECT(base != NULL || fault.status == BODDURCI_BAD_FILES);
        boddurci_close_files(base);
        base = opened("size", 0);
        EXPECT(count_of(base) == (size_t)count);
        boddurci_close_files(base);
    }
    boddurci_base *base = opened("wide", BODDURCI_WIDE | BODDURCI_UNSIGNED_KEYS);
    for (int i = 0; i < PAIRS; i++)
        store_one(base, i);
    snprintf(key, sizeof key, "key%d", PAIRS - 1);
    EXPECT(boddurci_save(base, &fault) == BODDURCI_DONE);
    boddurci_close_files(base);
    base = opened("wide", BODDURCI_WIDE | BODDURCI_UNSIGNED_KEYS);
    EXPECT(count_of(base) == PAIRS && value_of(base, key) == strlen(key));
    boddurci_close_files(base);
}

/* ---- names, untrusted files, children and time */

static void test_names(void)
{
    static const char *const names[] = {"", ".", "..", "/", "a/", "a/.", "a/..", "/..", "./"};
    for (size_t i = 0; i < sizeof names / sizeof *names; i++)
        EXPECT(fails(names[i], 0, BODDURCI_BAD_NAME));
    EXPECT(fails(NULL, 0, BODDURCI_BAD_NAME) && boddurci_open_files(NULL, 0, NULL) == NULL);
    EXPECT(boddurci_save(NULL, &fault) == BODDURCI_IS_CLOSED && boddurci_take(NULL) == NULL);
    boddurci_give(NULL);
    for (uint32_t status = 0; status < 50; status++) {
        int is_one = status <= BODDURCI_STALE || (status >= BODDURCI_IS_CLOSED && status <= BODDURCI_NO_STOCK) ||
                     (status >= BODDURCI_FILE_FAILED && status <= BODDURCI_OTHER_SIZE);
        EXPECT((strcmp(boddurci_files_text(status), "no status") != 0) == is_one);
    }
    EXPECT(strcmp(boddurci_version(), BODDURCI_VERSION) == 0);
}

/* Returns whether an opening for reading and one for writing refuse the base with this text, because of a redo file or lock, and change
 * nothing. */
static int is_unsafe(const char *name, const char *text)
{
    EXPECT(fails(name, BODDURCI_READ_ONLY, BODDURCI_UNSAFE) && strcmp(fault.text, text) == 0);
    return fails(name, BODDURCI_NO_WAIT, BODDURCI_UNSAFE) && strcmp(fault.text, text) == 0;
}

static void make_database(const char *name)
{
    boddurci_base *base = opened(name, 0);
    store_one(base, 1);
    EXPECT(boddurci_save(base, &fault) == BODDURCI_DONE);
    boddurci_close_files(base);
}

static void test_unsafe(void)
{
    char text[100];
    make_database("beside");
    EXPECT(chmod("beside.pag", 0644) == 0 && unlink("beside.lock") == 0 && unlink("beside.redo") == 0);
    EXPECT(mkfifo("beside.redo", 0600) == 0 && is_unsafe("beside", "beside.redo is a FIFO, and is not taken") && unlink("beside.redo") == 0);
    write_text("beside.redo", "", 0);
    EXPECT(link("beside.redo", "second") == 0 && is_unsafe("beside", "beside.redo has another name beside this one, and is not taken"));
    EXPECT(unlink("second") == 0 && chmod("beside.redo", 0664) == 0);
    snprintf(text, sizeof text, "beside.redo is of user %lu with mode 0664, and is not taken", (unsigned long)geteuid());
    EXPECT(is_unsafe("beside", text) && chmod("beside.pag", 0664) == 0);
    boddurci_close_files(opened("beside", BODDURCI_READ_ONLY));
    EXPECT(rename("beside.pag", "away") == 0 && is_unsafe("beside", text) && rename("away", "beside.pag") == 0 && unlink("beside.redo") == 0);
    EXPECT(unlink("beside.lock") == 0 && symlink("elsewhere", "beside.lock") == 0);
    EXPECT(is_unsafe("beside", "beside.lock is a symbolic link, and is not taken") && !is_there("elsewhere") && unlink("beside.lock") == 0);
    EXPECT(mkfifo("beside.lock", 0600) == 0 && is_unsafe("beside", "beside.lock is a FIFO, and is not taken") && unlink("beside.lock") == 0);
}

/* Files that a save makes have the permissions of .pag, with any umask. */
static void test_permissions(void)
{
    struct stat found;
    EXPECT(chmod("beside.pag", 0620) == 0 && unlink("beside.dir") == 0);
    boddurci_base *base = opened("beside", 0);
    EXPECT(stat("beside.lock", &found) == 0 && (found.st_mode & 07777) == 0620);
    for (int i = 0; i < PAIRS; i++)
        store_one(base, i);
    EXPECT(boddurci_save(base, &fault) == BODDURCI_DONE && stat("beside.dir", &found) == 0 && (found.st_mode & 07777) == 0620);
    EXPECT(stat("beside.redo", &found) == 0 && (found.st_mode & 07777) == 0620);
    boddurci_close_files(base);
    /* An existing redo file gets the permissions of .pag when it is opened. If it has other permissions, it is removed at the end. */
    EXPECT(chmod("beside.pag", 0660) == 0);
    base = opened("beside", 0);
    store_one(base, PAIRS);
    EXPECT(boddurci_save(base, &fault) == BODDURCI_DONE && stat("beside.redo", &found) == 0 && (found.st_mode & 07777) == 0660);
    EXPECT(chmod("beside.pag", 0600) == 0);
    boddurci_close_files(base);
    EXPECT(!is_there("beside.redo"));
}

/* A save changes no file except the opened one, and the base stays usable. */
static void test_moved(void)
{
    static const char *const names[] = {"moved.lock", "moved.pag", "moved.writer"};
    struct stat found;
    make_database("moved");
    for (int i = 0; i < 3; i++) {
        boddurci_base *base = opened("moved", 0);
        store_one(base, 10 + i);
        EXPECT(rename(names[i], "away") == 0 && boddurci_save(base, &fault) == BODDURCI_MOVED && !is_there(names[i]));
        write_text(names[i], "", 0);
        EXPECT(boddurci_save(base, &fault) == BODDURCI_MOVED && stat(names[i], &found) == 0 && found.st_size == 0);
        EXPECT(rename("away", names[i]) == 0 && boddurci_save(base, &fault) == BODDURCI_DONE && count_of(base) == (size_t)(2 + i));
        boddurci_close_files(base);
    }
}

/* While a base has a removed file open, none of 100 new files gets its inode. */
static void test_made_anew(void)
{
    struct stat was, is;
    make_database("anew");
    boddurci_base *base = opened("anew", 0);
    store_one(base, 10);
    EXPECT(stat("anew.pag", &was) == 0 && rename("anew.pag", "away") == 0 && unlink("away") == 0);
    for (int i = 0; i < 100; i++) {
        char name[16];
        snprintf(name, sizeof name, "made%d", i);
        write_text(name, "", 0);
        EXPECT(stat(name, &is) == 0 && is.st_ino != was.st_ino);
        if (is.st_ino == was.st_ino)
            EXPECT(rename(name, "anew.pag") == 0);
    }
    EXPECT(boddurci_save(base, &fault) == BODDURCI_MOVED);
    boddurci_close_files(base);
}

/* After a chdir, or if the folder is renamed, a save still goes to the same files. */
static void test_folder(void)
{
    EXPECT(mkdir("one", 0777) == 0 && mkdir("two", 0777) == 0 && symlink("one", "link") == 0);
    boddurci_base *linked = opened("link/db", 0);
    EXPECT(chdir("one") == 0);
    boddurci_base *base = opened("here", 0);
    store_one(base, 1);
    store_one(linked, 1);
    EXPECT(chdir("../two") == 0 && boddurci_save(base, &fault) == BODDURCI_DONE && chdir("..") == 0);
    EXPECT(unlink("link") == 0 && symlink("two", "link") == 0 && boddurci_save(linked, &fault) == BODDURCI_DONE);
    EXPECT(is_there("one/here.pag") && is_there("one/db.pag") && !is_there("two/here.pag") && !is_there("two/db.pag"));
    EXPECT(rename("one", "three") == 0);
    store_one(base, 2);
    EXPECT(boddurci_save(base, &fault) == BODDURCI_DONE && !is_there("one"));
    boddurci_close_files(base);
    boddurci_close_files(linked);
    base = opened("three/here", BODDURCI_READ_ONLY);
    EXPECT(count_of(base) == 2);
    boddurci_close_files(base);
}

/* Uses the base of the parent in a child. Returns 0 if every call is refused. */
static int in_child(boddurci_base *base)
{
    int is_refused = boddurci_save(base, &fault) == BODDURCI_FORKED && boddurci_take(base) == NULL;
    boddurci_give(base);
    boddurci_close_files(base);
    /* The child does not hold its parent's locks, but it holds the locks that it takes itself. */
    alarm(60);
    for (int i = 0; i < 3 && is_refused; i++) {
        boddurci_base *first = opened("first", 0), *second = opened("second", 0);
        is_refused = fails("forked", BODDURCI_NO_WAIT, BODDURCI_LOCKED) && fails("first", 0, BODDURCI_OPEN_HERE);
        boddurci_close_files(first);
        boddurci_close_files(second);
    }
    return is_refused ? 0 : 1;
}

static void test_forked(void)
{
    int status;
    make_database("forked");
    boddurci_base *base = opened("forked", 0);
    store_one(base, 2);
    EXPECT(boddurci_save(base, &fault) == BODDURCI_DONE);
    pid_t child = fork();
    if (child == 0)
        _exit(in_child(base));
    EXPECT(child > 0 && waitpid(child, &status, 0) == child && WIFEXITED(status) && WEXITSTATUS(status) == 0);
    EXPECT(is_marked("forked.redo"));
#ifdef SYS_clone
    /* A fork without the C library, which runs no fork handlers. */
    child = (pid_t)syscall(SYS_clone, SIGCHLD, 0, 0, 0, 0);
    if (child == 0) {
        int is_refused = boddurci_take(base) == NULL && boddurci_save(base, NULL) == BODDURCI_FORKED;
        boddurci_close_files(base);
        _exit(is_refused ? 0 : 1);
    }
    EXPECT(child > 0 && waitpid(child, &status, 0) == child && WIFEXITED(status) && WEXITSTATUS(status) == 0);
#endif
    EXPECT(is_locked("forked", 0) && boddurci_save(base, &fault) == BODDURCI_DONE);
    /* A child that continues to run does not keep the locks. */
    child = fork();
    if (child == 0) {
        pause();
        _exit(0);
    }
    boddurci_close_files(base);
    base = opened("forked", BODDURCI_NO_WAIT);
    EXPECT(child > 0 && count_of(base) == 2 && kill(child, SIGKILL) == 0 && waitpid(child, &status, 0) == child);
    boddurci_close_files(base);
}

static void heard(int number)
{
    (void)number;
}

static double seconds(void)
{
    struct timespec now;
    clock_gettime(CLOCK_MONOTONIC, &now);
    return (double)now.tv_sec + (double)now.tv_nsec * 1e-9;
}

/* Tests waits that end at their limit, and a wait that a signal ends. */
static void test_within(void)
{
    struct sigaction action;
    memset(&action, 0, sizeof action);
    action.sa_handler = heard;
    int lock = open("visits.lock", O_RDWR);
    EXPECT(lock >= 0 && flock(lock, LOCK_EX) == 0);
    double start = seconds();
    EXPECT(boddurci_open_files_within("visits", 0, 100, &fault) == NULL && fault.status == BODDURCI_LOCKED);
    EXPECT(seconds() - start > 0.09 && boddurci_open_files_within("visits", 0, 0, &fault) == NULL && fault.status == BODDURCI_LOCKED);
    /* A signal before the wait would have no effect, so the test sends one every second. */
    const struct itimerval each = {{1, 0}, {1, 0}}, never = {{0, 0}, {0, 0}};
    EXPECT(sigaction(SIGALRM, &action, NULL) == 0 && setitimer(ITIMER_REAL, &each, NULL) == 0);
    for (int milliseconds = -1; milliseconds < 60000; milliseconds += 60000)
        EXPECT(boddurci_open_files_within("visits", 0, milliseconds, &fault) == NULL && fault.status == BODDURCI_INTERRUPTED);
    EXPECT(setitimer(ITIMER_REAL, &never, NULL) == 0);
    close(lock);
    boddurci_base *base = boddurci_open_files_within("visits", 0, INT64_MAX, &fault);
    EXPECT(base != NULL && count_of(base) == PAIRS);
    boddurci_close_files(base);
}

int main(int argc, char **argv)
{
    if (argc != 2 || chdir(argv[1]) != 0)
        return 2;
    test_new();
    test_reader();
    test_ended_thread();
    test_failing();
    test_unchanged();
    test_ends();
    test_untouched();
    test_limited();
    test_written_later();
    test_meanwhile();
    test_links();
    test_other_base();
    test_bytes();
    test_other_size();
    test_names();
    test_unsafe();
    test_permissions();
    test_moved();
    test_made_anew();
    test_folder();
    test_forked();
    test_within();
    printf("%lu answers as expected\n", looked);
    return 0;
}
