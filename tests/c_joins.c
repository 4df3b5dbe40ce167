/* Tests saves that read their pages while they wait for the calls of other threads. tests/c_library links it with c_group.c. */
#define _GNU_SOURCE
#include "c_group.h"
#include <fcntl.h>
#include <stdlib.h>
#include <sys/file.h>
#include <sys/resource.h>
#include <sys/stat.h>

/* The keys of these numbers are on different pages. */
enum { KEYS = 3000, ONE = 1500, LATE = 2250 };

static boddurci_base *base;
static struct saver late;

/* Makes a base and opens it again, so that both data files are flushed. */
static void make(const char *name)
{
    base = opened(name);
    for (int i = 0; i < KEYS; i++)
        store(base, i, 0);
    EXPECT(boddurci_save(base, NULL) == BODDURCI_DONE);
    boddurci_close_files(base);
    base = boddurci_open_files(name, 0, NULL);
    EXPECT(base != NULL);
}

/* Two calls wait for the save of another thread, and share the next save. So the save after that waits for two calls. */
static void expect_two(void)
{
    struct saver savers[3];
    stops_first = 1;
    start(&savers[0], base, 0, 1, 1);
    AWAIT(is_stopped);
    for (int i = 1; i <= 2; i++) {
        start(&savers[i], base, i, 0, 1);
        AWAIT(waiting == i);
    }
    stops_first = 0;
    for (int i = 0; i <= 2; i++)
        join(&savers[i]);
}

static void call_late(void)
{
    start(&late, base, LATE, 0, 1);
    AWAIT(waiting == 1);
}

/* A save that waits for calls reads the files before they come, under BASE.lock. A call that comes during that reading shares the save, which
 * has its change, and returns while the saving thread writes the data files. */
static void test_joining(void)
{
    struct saver one;
    make("joining");
    expect_two();
    unsigned long before = flushes;
    stops_reads = stops_writes = 1;
    start(&one, base, ONE, 0, 1);
    AWAIT(is_read_stopped);
    int lock = open("joining.lock", O_RDWR);
    EXPECT(lock >= 0 && flock(lock, LOCK_EX | LOCK_NB) != 0 && errno == EWOULDBLOCK && close(lock) == 0);
    call_late();
    EXPECT(flushes == before && one.done == 0 && late.done == 0);
    stops_reads = 0;
    AWAIT(is_write_stopped);
    for (int i = 0; i < 5000 && late.done == 0; i++)
        rest();
    EXPECT(one.done == 0 && late.done == 1);
    stops_writes = 0;
    join(&one);
    join(&late);
    EXPECT(one.status == BODDURCI_DONE && late.status == BODDURCI_DONE && flushes == before + 1);
    EXPECT(left_value(ONE) == 1 && left_value(LATE) == 1);
    boddurci_close_files(base);
}

/* ---- what may happen while a save has read its pages and waits for calls */

/* Writes over the head of the page of ONE, more than a tick later. A save of ONE does not change that part of the page. */
static void write_page(void)
{
    enum { TICKS = 40, MOST = 1 << 21, PAGE = 1024, PART = 256 };
    static uint8_t pages[MOST];
    for (int i = 0; i < TICKS; i++)
        rest();
    int file = open("joins.pag", O_RDWR);
    ssize_t length = file < 0 ? -1 : read(file, pages, MOST);
    const uint8_t *key = length < 0 ? NULL : memmem(pages, (size_t)length, "key1500", 7);
    EXPECT(key != NULL);
    off_t at = key - pages, head = at / PAGE * PAGE + 2;
    EXPECT(at - head > PART && lseek(file, head, SEEK_SET) == head && write(file, "another", 7) == 7 && close(file) == 0);
}

static void make_longer(void)
{
    struct stat is;
    EXPECT(stat("joins.pag", &is) == 0 && truncate("joins.pag", is.st_size + 1024) == 0);
}

static void replace(void)
{
    EXPECT(rename("joins.pag", "gone.pag") == 0 && system("cp gone.pag joins.pag") == 0);
}

static void call_and_insist(void)
{
    struct saver new = {.base = base, .number = LATE, .changes = 1, .flags = BODDURCI_INSIST};
    write_page();
    start_as(&late, new);
    AWAIT(waiting == 1);
}

static struct rlimit usual;

static void set_limit(void)
{
    struct rlimit low;
    EXPECT(getrlimit(RLIMIT_FSIZE, &usual) == 0);
    low = usual;
    low.rlim_cur = 4096;
    EXPECT(setrlimit(RLIMIT_FSIZE, &low) == 0);
}

/* Saves a change while `what` happens, and the first reads of .pag fail. Returns the status of the save. */
static uint32_t try_to_save(void (*what)(void), int failing)
{
    struct saver one, new = {.number = ONE, .changes = 1, .is_watched = 1};
    (void)!(unlink("joins.pag") + unlink("joins.dir") + unlink("joins.redo"));
    make("joins");
    expect_two();
    meanwhile = what;
    fails_reads = failing;
    new.base = base;
    start_as(&one, new);
    join(&one);
    EXPECT(fails_reads == 0);
    return one.status;
}

/* Tries again if the saving thread was stopped for so long that it did not wait at all. */
static uint32_t save_failing(void (*what)(void), int failing)
{
    enum { TRIES = 20 };
    uint32_t status = try_to_save(what, failing);
    for (int tries = 0; meanwhile != NULL; tries++) {
        EXPECT(tries < TRIES && status == BODDURCI_DONE);
        boddurci_close_files(base);
        status = try_to_save(what, failing);
    }
    return status;
}

static uint32_t save_while(void (*what)(void))
{
    return save_failing(what, 0);
}

/* Expects that a late call has shared the save, and that the files have the whole database. */
static void expect_joined(void)
{
    join(&late);
    EXPECT(late.status == BODDURCI_DONE && left_value(LATE) == 1 && left_value(ONE) == 1);
    boddurci_close_files(base);
    base = boddurci_open_files("joins", BODDURCI_READ_ONLY, NULL);
    EXPECT(base != NULL);
    for (int i = 3; i < KEYS; i++)
        EXPECT(value_of(base, i) == (i == ONE || i == LATE));
    boddurci_close_files(base);
}

/* A late call and its change are in the save. The save finds changes of another program, as a save that does not wait does. A late call that
 * insists makes the save insist. If the save fails, the next save has its changes. A read that fails is repeated. */
static void test_waits(void)
{
    EXPECT(save_while(call_late) == BODDURCI_DONE);
    expect_joined();
    EXPECT(save_while(write_page) == BODDURCI_CHANGED);
    boddurci_close_files(base);
    EXPECT(save_while(make_longer) == BODDURCI_CHANGED);
    boddurci_close_files(base);
    EXPECT(save_while(replace) == BODDURCI_MOVED);
    boddurci_close_files(base);
    EXPECT(save_while(call_and_insist) == BODDURCI_DONE);
    expect_joined();
    EXPECT(save_while(set_limit) == BODDURCI_FILE_FAILED && setrlimit(RLIMIT_FSIZE, &usual) == 0);
    EXPECT(boddurci_save(base, NULL) == BODDURCI_DONE && left_value(ONE) == 1);
    boddurci_close_files(base);
    EXPECT(save_failing(call_late, 1) == BODDURCI_DONE);
    expect_joined();
}

void test_joins(void)
{
    test_joining();
    test_waits();
}
