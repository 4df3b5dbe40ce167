/* Tests notes about the log whose file system has lost bytes that were not synced, without a start of the system, and the syncs of names. Part
 * of tests/c_shared.c. */
#define _GNU_SOURCE
#include "c_shared.h"
#include <dlfcn.h>
#include <fcntl.h>
#include <sys/file.h>
#include <sys/stat.h>
#include <unistd.h>

/* ---- lost bytes */

/* Writes older bytes of .pag, with the time of their last write. So the file is as if its file system had lost the later writes. */
static void lose(const char *base, struct bytes pages, struct timespec written)
{
    char name[300];
    struct timespec times[2] = {{0, UTIME_OMIT}, written};
    snprintf(name, sizeof name, "%s.pag", base);
    write_file(base, ".pag", pages.at, pages.length);
    EXPECT(utimensat(AT_FDCWD, name, times, 0) == 0);
}

static struct timespec written(const char *base)
{
    char name[300];
    struct stat found;
    snprintf(name, sizeof name, "%s.pag", base);
    EXPECT(stat(name, &found) == 0);
    return found.st_mtim;
}

/* Returns the end of the records, as the note in BASE.lock has it. */
static uint64_t end_of(const char *base)
{
    uint64_t end = 0;
    struct bytes lock = read_file(base, ".lock");
    EXPECT(lock.length > 16);
    for (int i = 7; i >= 0; i--)
        end = end << 8 | lock.at[8 + i];
    free(lock.at);
    return end;
}

enum way { FETCH, STORE, FLUSH, READER, WRITER, WAYS };

/* Opens a base whose data files lack changes, and makes the first call. */
static void open_lost(const char *base, enum way way, const char *value)
{
    if (way >= READER) {
        boddurci_base *whole = boddurci_open_files(base, way == READER ? BODDURCI_READ_ONLY : 0, &fault);
        size_t length = 0;
        uint8_t room[40];
        EXPECT(boddurci_fetch(boddurci_take(whole), BYTES("a"), room, sizeof room, &length) == BODDURCI_DONE);
        EXPECT(length == strlen(value) && memcmp(room, value, length) == 0);
        boddurci_give(whole);
        boddurci_close_files(whole);
        return;
    }
    boddurci_shared *shared = opened(base, 0);
    if (way == STORE)
        EXPECT(store(shared, "c", "more") == BODDURCI_DONE);
    if (way == FLUSH)
        EXPECT(boddurci_shared_flush(shared, &fault) == BODDURCI_DONE);
    EXPECT(has(shared, "a", value) && has(shared, "b", "first"));
    boddurci_close_shared(shared);
}

/* Tests a note without an open handle: with few records, which are compared with the files, and with many, which are recovered. */
static void test_lost_bytes(int records)
{
    char base[40], value[40] = "";
    for (enum way way = FETCH; way < WAYS; way++) {
        snprintf(base, sizeof base, "lost%d_%d", records, (int)way);
        boddurci_shared *shared = opened(base, 0);
        EXPECT(store(shared, "b", "first") == BODDURCI_DONE && store(shared, "a", "not 00000") == BODDURCI_DONE);
        boddurci_close_shared(shared);
        struct bytes pages = read_file(base, ".pag");
        struct timespec then = written(base);
        shared = opened(base, 0);
        for (int i = 0; i < records; i++)
            EXPECT(store(shared, "a", (snprintf(value, sizeof value, "now %05d", i), value)) == BODDURCI_DONE);
        boddurci_close_shared(shared);
        lose(base, pages, then);
        free(pages.at);
        open_lost(base, way, value);
        for (enum way next = FETCH; next < WAYS; next++)
            open_lost(base, next, value);
    }
}

/* If no byte is lost, a handle continues the log. A short log is compared with the files, unless another handle is open. A long log is emptied
 * if no other handle is open. */
static void test_kept_bytes(void)
{
    enum { SHORT = 100, LONG = 900, MOST = 65536 };
    char value[40];
    uint64_t end = 0;
    boddurci_shared *other = NULL;
    for (int i = 0; i < LONG; i++) {
        boddurci_shared *shared = opened("kept", 0);
        EXPECT(store(shared, "a", (snprintf(value, sizeof value, "value %d", i), value)) == BODDURCI_DONE);
        EXPECT(boddurci_shared_flush(shared, &fault) == BODDURCI_DONE);
        EXPECT(end_of("kept") > end);
        end = end_of("kept");
        if (i == SHORT)
            other = opened("kept", 0);
        EXPECT(other == NULL || has(other, "a", value));
        boddurci_close_shared(shared);
    }
    EXPECT(end > MOST && store(other, "b", "first") == BODDURCI_DONE && boddurci_shared_flush(other, &fault) == BODDURCI_DONE);
    EXPECT(end_of("kept") > end);
    boddurci_close_shared(other);
    open_lost("kept", STORE, value);
    EXPECT(end_of("kept") < MOST);
}

/* ---- names */

static unsigned long folder_syncs;

/* Counts the calls, and then calls the function of tests/cut.c or of the C library. The library syncs only folders by it. */
int fsync(int file)
{
    int (*next)(int);
    *(void **)&next = dlsym(RTLD_NEXT, "fsync");
    folder_syncs++;
    return next(file);
}

/* If other files get the names of a base, the next change syncs the folder, even if the handle has synced it before. Otherwise a loss of power
 * could bring back the former files. */
static void test_moved_names(void)
{
    static const char *const endings[2] = {".pag", ".dir"};
    char from[40], to[40];
    boddurci_shared *shared = opened("names", 0), *other = opened("other", 0);
    EXPECT(store(shared, "a", "b") == BODDURCI_DONE && store(other, "a", "c") == BODDURCI_DONE);
    boddurci_close_shared(other);
    boddurci_close_files(boddurci_open_files("other", 0, &fault));
    boddurci_close_files(boddurci_open_files("names", 0, &fault));
    EXPECT(store(shared, "a", "d") == BODDURCI_DONE);
    boddurci_close_files(boddurci_open_files("names", 0, &fault));
    EXPECT(!is_marked("names") && !is_marked("other"));
    int lock = taken("names.lock", LOCK_EX), writer = taken("names.writer", LOCK_EX);
    for (int i = 0; i < 2; i++) {
        snprintf(from, sizeof from, "other%s", endings[i]);
        snprintf(to, sizeof to, "names%s", endings[i]);
        EXPECT(access(from, F_OK) != 0 || rename(from, to) == 0);
    }
    close(writer);
    close(lock);
    folder_syncs = 0;
    EXPECT(store(shared, "e", "f") == BODDURCI_DONE && folder_syncs > 0 && has(shared, "a", "c"));
    folder_syncs = 0;
    EXPECT(store(shared, "e", "g") == BODDURCI_DONE && folder_syncs == 0);
    boddurci_close_shared(shared);
}

void test_notes(void)
{
    test_lost_bytes(3);
    test_lost_bytes(900);
    test_kept_bytes();
    test_moved_names();
}
