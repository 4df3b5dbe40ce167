/* Tests the files of a shared base: missing, lost, invalid and replaced files, other programs that write them, and the limits on files and
 * memory. Part of tests/c_shared.c. */
#define _GNU_SOURCE
#include "c_shared.h"
#include <errno.h>
#include <fcntl.h>
#include <malloc.h>
#include <sys/resource.h>
#include <sys/stat.h>
#include <time.h>
#include <unistd.h>

/* ---- missing and invalid files */

void test_names(void)
{
    EXPECT(fails(NULL, 0, BODDURCI_BAD_NAME) && fails("", 0, BODDURCI_BAD_NAME) && fails("a/..", 0, BODDURCI_BAD_NAME));
    EXPECT(fails("nowhere/db", 0, BODDURCI_FILE_FAILED) && fault.system == ENOENT);
    EXPECT(fails("missing", BODDURCI_MUST_EXIST, BODDURCI_FILE_FAILED) && fault.system == ENOENT);
    EXPECT(boddurci_open_shared("", 0, NULL) == NULL);
    boddurci_shared *shared = opened("missing", 0);
    EXPECT(has(shared, "a", NULL) && boddurci_shared_delete(shared, BYTES("a"), NULL) == BODDURCI_MISSING);
    EXPECT(access("missing.pag", F_OK) != 0 && access("missing.redo", F_OK) != 0);
    EXPECT(store(shared, "a", "b") == BODDURCI_DONE && has(shared, "a", "b"));
    boddurci_shared *other = opened("missing", BODDURCI_MUST_EXIST);
    EXPECT(has(other, "a", "b"));
    /* The log has all saves since the database was empty. */
    EXPECT(unlink("missing.pag") == 0 && boddurci_shared_delete(other, BYTES("c"), &fault) == BODDURCI_MISSING && has(other, "a", "b"));
    EXPECT(store(shared, "b", "c") == BODDURCI_DONE && has(other, "a", "b") && has(other, "b", "c"));
    EXPECT(unlink("missing.pag") == 0 && unlink("missing.dir") == 0 && unlink("missing.redo") == 0);
    EXPECT(boddurci_shared_delete(other, BYTES("a"), &fault) == BODDURCI_FILE_FAILED && fault.system == ENOENT);
    EXPECT(store(shared, "a", "c") == BODDURCI_DONE && has(other, "a", "c") && has(other, "b", NULL));
    boddurci_close_files(boddurci_open_files("missing", 0, &fault));
    EXPECT(!is_marked("missing") && unlink("missing.pag") == 0 && fails("missing", BODDURCI_MUST_EXIST, BODDURCI_FILE_FAILED));
    boddurci_close_shared(other);
    boddurci_close_shared(shared);
}

/* Changes the boot id in the note about the log, as if the note came from another boot of the system. docs/DESIGN.md defines the bytes of a
 * note. */
static void change_boot(const char *base)
{
    enum { BOOT = 64, CHECK = 144 };
    uint64_t check = 14695981039346656037u;
    struct bytes lock = read_file(base, ".lock");
    EXPECT(is_marked(base) && lock.length >= CHECK + 8 && memcmp(lock.at, "sdbmnot5", 8) == 0);
    lock.at[BOOT] ^= 1;
    for (int i = 0; i < CHECK; i += 8) {
        uint64_t word = 0;
        for (int k = 8; k > 0; k--)
            word = word << 8 | lock.at[i + k - 1];
        check = (check ^ word) * 1099511628211u;
    }
    for (int i = 0; i < 8; i++)
        lock.at[CHECK + i] = (uint8_t)(check >> 8 * i);
    write_file(base, ".lock", lock.at, lock.length);
    free(lock.at);
}

/* After a loss of power the data files lack changes that the log has. The note is from an earlier boot, so the log must be recovered. */
void test_boots(void)
{
    boddurci_shared *shared = opened("boots", 0);
    EXPECT(store(shared, "a", "first") == BODDURCI_DONE && store(shared, "b", "first") == BODDURCI_DONE);
    for (int i = 0; i < 3; i++) {
        struct bytes pages = read_file("boots", ".pag");
        EXPECT(store(shared, "a", i % 2 ? "odd" : "even") == BODDURCI_DONE && has(shared, "a", i % 2 ? "odd" : "even"));
        write_file("boots", ".pag", pages.at, pages.length);
        free(pages.at);
        change_boot("boots");
        if (i == 1)
            EXPECT(store(shared, "b", "second") == BODDURCI_DONE);
        if (i == 2)
            boddurci_close_files(boddurci_open_files("boots", 0, &fault));
        EXPECT(has(shared, "a", i % 2 ? "odd" : "even") && has(shared, "b", i == 0 ? "first" : "second"));
    }
    boddurci_close_shared(shared);
}

/* After a loss of power .pag may exist only in the log. */
void test_lost_pages(void)
{
    for (uint32_t flags = 0; flags <= BODDURCI_WIDE; flags += BODDURCI_WIDE)
        for (int stores = 0; stores < 2; stores++) {
            boddurci_shared *shared = opened("pages", flags);
            EXPECT(store(shared, "a", "b") == BODDURCI_DONE);
            boddurci_close_shared(shared);
            change_boot("pages");
            EXPECT(unlink("pages.pag") == 0 && unlink("pages.dir") == 0 && unlink("pages.lock") == 0);
            shared = opened("pages", flags | BODDURCI_MUST_EXIST);
            EXPECT(!stores || store(shared, "b", "c") == BODDURCI_DONE);
            EXPECT(has(shared, "a", "b") && access("pages.pag", F_OK) == 0);
            boddurci_close_shared(shared);
            EXPECT(unlink("pages.pag") == 0 && unlink("pages.dir") == 0 && unlink("pages.redo") == 0);
        }
}

/* Small pages are not opened as wide pages. */
void test_sizes(void)
{
    boddurci_shared *shared = opened("sizes", 0);
    struct stat found = {.st_size = 1};
    char key[20];
    for (int i = 0; i < 200 || found.st_size % 8192 != 0; i++)
        EXPECT(store(shared, (sprintf(key, "%d", i), key), "some value") == BODDURCI_DONE && stat("sizes.pag", &found) == 0);
    boddurci_close_shared(shared);
    EXPECT(fails("sizes", BODDURCI_WIDE, BODDURCI_OTHER_SIZE));
    boddurci_close_shared(opened("sizes", BODDURCI_WIDE | BODDURCI_ANY_SIZE));
    shared = opened("sizes", BODDURCI_MUST_EXIST);
    EXPECT(has(shared, "7", "some value"));
    boddurci_close_shared(shared);
}

/* Tests files that no save has left, and files that are not a database. */
void test_files(void)
{
    static const uint8_t junk[1024] = {255, 255, 1};
    boddurci_shared *shared = opened("files", 0);
    write_file("files", ".pag", junk, 100);
    EXPECT(store(shared, "a", "b") == BODDURCI_BAD_FILES && fault.text[0] != 0);
    write_file("files", ".pag", junk, sizeof junk);
    EXPECT(store(shared, "a", "b") == BODDURCI_BAD_FILES && boddurci_shared_delete(shared, BYTES("a"), &fault) == BODDURCI_BAD_FILES);
    EXPECT(unlink("files.pag") == 0);
    char key[20];
    for (int i = 0; i < 200; i++)
        EXPECT(store(shared, (sprintf(key, "%d", i), key), "some value") == BODDURCI_DONE);
    /* A call notices that the directory is lost, unless the log has the directory. */
    boddurci_close_files(boddurci_open_files("files", 0, &fault));
    EXPECT(!is_marked("files") && rename("files.dir", "lost") == 0 && store(shared, "a", "b") == BODDURCI_BAD_FILES);
    EXPECT(boddurci_shared_fetch(shared, BYTES("a"), NULL, 0, NULL, &fault) == BODDURCI_BAD_FILES);
    EXPECT(rename("lost", "files.dir") == 0 && has(shared, "7", "some value") && store(shared, "a", "b") == BODDURCI_DONE);
    boddurci_close_shared(shared);
}

/* Returns the number of a page of .pag that is all zeros, or 0 if there is no such page. Pages are small. */
static size_t empty_page(const char *base)
{
    static const uint8_t zeros[1024];
    size_t number = 0;
    struct bytes pages = read_file(base, ".pag");
    for (size_t i = 1; i < pages.length / sizeof zeros; i++)
        number = memcmp(pages.at + i * sizeof zeros, zeros, sizeof zeros) == 0 ? i : number;
    free(pages.at);
    return number;
}

/* Writes a page in place. */
static void write_page(const char *base, size_t number, const uint8_t page[1024])
{
    struct bytes pages = read_file(base, ".pag");
    memcpy(pages.at + number * 1024, page, 1024);
    write_file(base, ".pag", pages.at, pages.length);
    free(pages.at);
}

static uint32_t store_long(boddurci_shared *shared, int number)
{
    char key[20], value[201];
    sprintf(key, "%d", number);
    memset(value, 'v', 200);
    value[200] = 0;
    return store(shared, key, value);
}

/* A split must not overwrite a page that has bytes, even if the directory does not lead to that page. The split fails as it does on the
 * whole database. */
void test_targets(void)
{
    uint8_t pages[3][1024] = {{0}, {255, 255, 1}, {0}};
    boddurci_shared *shared = opened("targets", 0);
    int next = 0;
    while (empty_page("targets") == 0 && next < 200)
        EXPECT(store_long(shared, next++) == BODDURCI_DONE);
    size_t number = empty_page("targets");
    struct bytes is = read_file("targets", ".pag");
    memcpy(pages[2], is.at, 1024);
    free(is.at);
    EXPECT(number != 0);
    for (int i = 1; i <= 2; i++) {
        write_page("targets", number, pages[i]);
        uint32_t status = BODDURCI_DONE;
        for (int tries = 0; status == BODDURCI_DONE && tries < 200; tries++)
            status = store_long(shared, next++);
        EXPECT(status == BODDURCI_BAD_FILES && boddurci_open_files("targets", 0, &fault) == NULL && fault.status == BODDURCI_BAD_FILES);
        is = read_file("targets", ".pag");
        EXPECT(memcmp(is.at + number * 1024, pages[i], 1024) == 0);
        free(is.at);
        next--;
        write_page("targets", number, pages[0]);
    }
    EXPECT(store_long(shared, next) == BODDURCI_DONE && empty_page("targets") != number);
    boddurci_close_shared(shared);
}

/* ---- programs that do not know the log */

/* Opens a handle on the data files without locks and without the log, as another program would read these files. */
static void open_raw(boddurci *db, const char *base, uint32_t flags)
{
    uint8_t text[200];
    size_t length;
    struct bytes dir = read_file(base, ".dir"), pag = read_file(base, ".pag");
    EXPECT(boddurci_open(db, dir.at, dir.length, pag.at, pag.length, flags & BODDURCI_WIDE, (flags & BODDURCI_UNSIGNED_KEYS) != 0, text,
                         sizeof text, &length) == BODDURCI_DONE);
    free(dir.at);
    free(pag.at);
}

/* Writes the files of a handle in place, as another program would write them, and closes the handle. */
static void write_raw(boddurci *db, const char *base)
{
    uint8_t none[1];
    size_t dir_length, pag_length;
    EXPECT(boddurci_files(db, none, 0, &dir_length, none, 0, &pag_length) == BODDURCI_SHORT_ROOM);
    uint8_t *dir = malloc(dir_length + 1), *pag = malloc(pag_length + 1);
    EXPECT(boddurci_files(db, dir, dir_length, &dir_length, pag, pag_length, &pag_length) == BODDURCI_DONE);
    write_file(base, ".dir", dir, dir_length);
    write_file(base, ".pag", pag, pag_length);
    free(dir);
    free(pag);
    boddurci_close(db);
}

static void store_raw(const char *base, const char *key, const char *value)
{
    boddurci db = BODDURCI_CLOSED;
    open_raw(&db, base, 0);
    EXPECT(boddurci_store(&db, (const uint8_t *)key, strlen(key), (const uint8_t *)value, strlen(value), 1) == BODDURCI_DONE);
    write_raw(&db, base);
}

void test_others(void)
{
    char key[20];
    boddurci_shared *shared = opened("others", 0);
    EXPECT(store(shared, "a", "b") == BODDURCI_DONE && store(shared, "a", "c") == BODDURCI_DONE);
    for (int i = 0; i < 40; i++) {
        sprintf(key, "%d", i);
        rest();
        store_raw("others", "a", key);
        EXPECT(has(shared, "a", key));
        if (i % 2)
            store_raw("others", key, "a value that makes the page longer");
        EXPECT(store(shared, "b", key) == BODDURCI_DONE && has(shared, "a", key) && has(shared, "b", key));
        if (i % 4 == 3) {
            rest();
            store_raw("others", "a", "x");
        }
        if (i % 8 == 3) {
            /* The next opening sees the write too. */
            boddurci_base *base = boddurci_open_files("others", i % 16 == 3 ? BODDURCI_READ_ONLY : 0, &fault);
            EXPECT(base != NULL);
            boddurci_close_files(base);
            EXPECT(has(shared, "a", "x") && has(shared, "b", key));
        }
    }
    EXPECT(is_marked("others"));
    boddurci_close_shared(shared);
}

/* ---- names that lead to other files */

/* Tests names that now lead to the files of another database. */
void test_replaced(void)
{
    boddurci_shared *shared = opened("old", 0), *other = opened("new", 0);
    EXPECT(store(shared, "a", "old") == BODDURCI_DONE && store(other, "a", "new") == BODDURCI_DONE);
    EXPECT(rename("new.pag", "old.pag") == 0 && rename("new.dir", "old.dir") == 0 && rename("new.redo", "old.redo") == 0);
    EXPECT(has(shared, "a", "new") && store(shared, "b", "x") == BODDURCI_DONE && has(shared, "b", "x"));
    EXPECT(has(other, "a", NULL) && store(other, "a", "newer") == BODDURCI_DONE && has(shared, "a", "new"));
    boddurci_close_shared(other);
    boddurci_close_shared(shared);
}

static void swap(const char *one, const char *other, const char *ending)
{
    char a[20], b[20];
    sprintf(a, "%s%s", one, ending);
    sprintf(b, "%s%s", other, ending);
    EXPECT(rename(a, "swapped") == 0 && rename(b, a) == 0 && rename("swapped", b) == 0);
}

/* The names of two databases are swapped just after some changes, so that the folder's time is the only sign of it. */
void test_swapped(void)
{
    static const char *const endings[3] = {".pag", ".dir", ".redo"};
    static const struct timespec old = {0, 30000000};
    char value[20];
    boddurci_shared *shared = opened("one", 0), *other = opened("two", 0);
    EXPECT(store(other, "who", "two") == BODDURCI_DONE && store(shared, "who", "one") == BODDURCI_DONE);
    for (int i = 0; i < 30; i++) {
        nanosleep(&old, NULL);
        for (int times = 0; times < 5; times++)
            EXPECT(store(shared, "a", "before") == BODDURCI_DONE);
        for (int k = 0; k < 3; k++)
            swap("one", "two", endings[k]);
        sprintf(value, "%d", i);
        EXPECT(store(shared, "a", value) == BODDURCI_DONE && has(shared, "who", i % 2 ? "one" : "two"));
        EXPECT(has(shared, "a", value) && has(other, "a", "before"));
    }
    boddurci_close_shared(other);
    boddurci_close_shared(shared);
}

/* If the working folder changes or the folder of the base is renamed, the handle uses the same files as before, even for a call on the
 * whole base. */
void test_folders(void)
{
    boddurci_shared *shared = opened("folder/db", 0);
    EXPECT(store(shared, "a", "b") == BODDURCI_DONE && rename("folder", "moved") == 0 && chdir("/") == 0);
    EXPECT(boddurci_shared_delete(shared, BYTES("a"), &fault) == BODDURCI_DONE && has(shared, "a", NULL));
    EXPECT(store(shared, "a", "c") == BODDURCI_DONE && has(shared, "a", "c"));
    boddurci_close_shared(shared);
}

/* ---- limits: the length of files, a log that gets full, and memory */

/* A limit on the length of files causes a fault and no signal. */
void test_limit(void)
{
    struct rlimit most, less;
    boddurci_shared *shared = opened("limit", 0);
    EXPECT(getrlimit(RLIMIT_FSIZE, &most) == 0 && store(shared, "a", "b") == BODDURCI_DONE);
    less = most;
    less.rlim_cur = 1000;
    EXPECT(setrlimit(RLIMIT_FSIZE, &less) == 0);
    EXPECT(store(shared, "a", "c") == BODDURCI_FILE_FAILED && fault.system == EFBIG && has(shared, "a", "b"));
    EXPECT(setrlimit(RLIMIT_FSIZE, &most) == 0 && store(shared, "a", "c") == BODDURCI_DONE && has(shared, "a", "c"));
    boddurci_close_shared(shared);
}

void test_long(void)
{
    char key[20];
    boddurci_shared *shared = opened("long", 0);
    uint32_t counter = counter_of(shared);
    for (int i = 0; i < 9000; i++)
        EXPECT(increment(shared, counter, (sprintf(key, "%d", i % 50), key)) == (uint64_t)i / 50 + 1);
    struct bytes redo = read_file("long", ".redo");
    EXPECT(redo.length < 8 << 20);
    free(redo.at);
    /* After each third call, a process like a service or a reader opens the base and closes it. */
    for (int i = 0; i < 60; i++) {
        EXPECT(increment(shared, counter, "0") == 181 + (uint64_t)i);
        if (i % 3 == 0)
            boddurci_close_files(boddurci_open_files("long", i % 2 ? BODDURCI_READ_ONLY : 0, &fault));
    }
    boddurci_close_shared(shared);
}

/* Returns the bytes that the program has from malloc. */
static size_t used_bytes(void)
{
    struct mallinfo2 info = mallinfo2();
    return info.uordblks + info.hblkhd;
}

/* A handle takes less than 1 MiB in a base of several MiB, even if it finds changes of another handle. */
void test_memory(void)
{
    char key[20];
    boddurci_base *base = boddurci_open_files("memory", 0, &fault);
    boddurci *db = boddurci_take(base);
    for (int i = 0; i < 40000; i++)
        EXPECT(boddurci_store(db, (uint8_t *)key, (size_t)sprintf(key, "%d", i), BYTES("a value of some bytes"), 0) == BODDURCI_DONE);
    boddurci_give(base);
    EXPECT(boddurci_save(base, &fault) == BODDURCI_DONE);
    boddurci_close_files(base);
    size_t before = used_bytes(), most = 0;
    boddurci_shared *both[2] = {opened("memory", 0), opened("memory", 0)};
    uint32_t counter = counter_of(both[0]);
    EXPECT(counter_of(both[1]) == counter);
    for (int i = 0; i < 2000; i++) {
        boddurci_shared *shared = both[i % 3 == 0];
        sprintf(key, "counter %d", i % 300);
        EXPECT(increment(shared, counter, key) == (uint64_t)i / 300 + 1 && has(shared, key, NULL) == 0);
        most = used_bytes() > most ? used_bytes() : most;
    }
    /* A sanitizer has its own malloc, for which mallinfo2 returns zeros. */
    EXPECT(most == 0 || (most > before && most - before < 2 << 20));
    boddurci_close_shared(both[0]);
    boddurci_close_shared(both[1]);
}
