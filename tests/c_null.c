/* Tests every call of both headers that takes a handle, a reading, a ticket or a base, with NULL for it. The call must return the right
 * status and write nothing. tests/c_library builds and runs it, and checks that no call is missing. */
#define _POSIX_C_SOURCE 200809L
#include "boddurci_files.h"
#include <stdio.h>
#include <stdlib.h>
#include <string.h>
#include <sys/wait.h>
#include <unistd.h>

#define BYTES(text) ((const uint8_t *)(text)), (sizeof(text) - 1)

/* All results that a call may write. */
struct told {
    uint8_t room[16], other[16];
    size_t length, more, unit;
    uint64_t end, word;
    uint32_t number;
    boddurci_cursor cursor;
};

static struct told told, before;
static unsigned long looked;

#define EXPECT(what)                                                                                                               \
    do {                                                                                                                           \
        looked++;                                                                                                                  \
        if (!(what)) {                                                                                                             \
            fprintf(stderr, "c_null.c:%d: not so: %s\n", __LINE__, #what);                                                         \
            exit(1);                                                                                                               \
        }                                                                                                                          \
    } while (0)

/* Expects that a call returns this status and has written nothing. */
#define REFUSES(expected, call)                                                                                                    \
    do {                                                                                                                           \
        memset(&before, 0x5a, sizeof before);                                                                                      \
        memcpy(&told, &before, sizeof told);                                                                                       \
        EXPECT((call) == (expected));                                                                                              \
        EXPECT(memcmp(&told, &before, sizeof told) == 0);                                                                          \
    } while (0)

#define CLOSED(call) REFUSES(BODDURCI_IS_CLOSED, call)

static void test_pairs(boddurci *none)
{
    uint8_t *room = told.room, *other = told.other;
    size_t most = sizeof told.room;
    CLOSED(boddurci_open(none, BODDURCI_NO_BYTES, BODDURCI_NO_BYTES, 0, 0, room, most, &told.length));
    EXPECT(boddurci_is_open(none) == 0);
    CLOSED(boddurci_limit(none, 1024));
    CLOSED(boddurci_fetch(none, BYTES("a"), room, most, &told.length));
    CLOSED(boddurci_store(none, BYTES("a"), BYTES("b"), 1));
    CLOSED(boddurci_delete(none, BYTES("a")));
    CLOSED(boddurci_count(none, &told.length));
    CLOSED(boddurci_first(none, &told.cursor));
    CLOSED(boddurci_next(none, &told.cursor, room, most, &told.length, other, most, &told.more));
    CLOSED(boddurci_files(none, room, most, &told.length, other, most, &told.more));
    CLOSED(boddurci_changed(none, &told.number, 1, &told.length));
    CLOSED(boddurci_plan(none, BODDURCI_NO_BYTES, 0, &told.number, 0, BODDURCI_NO_BYTES, room, most, &told.length));
    CLOSED(boddurci_mark(none, &told.number, 1));
    boddurci_close(none);
}

static void test_programs(boddurci *none)
{
    boddurci db = BODDURCI_CLOSED;
    boddurci_ticket ticket = BODDURCI_FREE;
    uint8_t *room = told.room;
    size_t most = sizeof told.room;
    CLOSED(boddurci_submit(none, BYTES("12345678"), &told.number, &told.unit, room, most, &told.length));
    CLOSED(boddurci_stock(none, "counter", &told.number));
    CLOSED(boddurci_submit_stock(none, BYTES("counter"), &told.number));
    CLOSED(boddurci_run(none, 0, BYTES("a"), BODDURCI_NO_BYTES, 1, 8, 0, &told.end, &told.word));
    CLOSED(boddurci_add(none, BYTES("a"), 1, 0, 8, &told.end, &told.word));
    CLOSED(boddurci_ask(none, &ticket, 0, BYTES("a"), BODDURCI_NO_BYTES, 1, 8, 0));
    CLOSED(boddurci_ask(none, NULL, 0, BYTES("a"), BODDURCI_NO_BYTES, 1, 8, 0));
    CLOSED(boddurci_finish(none, &ticket, &told.end, &told.word));
    CLOSED(boddurci_finish(none, NULL, &told.end, &told.word));
    REFUSES(BODDURCI_NO_TICKET, boddurci_ask(&db, NULL, 0, BYTES("a"), BODDURCI_NO_BYTES, 1, 8, 0));
    REFUSES(BODDURCI_NO_TICKET, boddurci_finish(&db, NULL, &told.end, &told.word));
    REFUSES(BODDURCI_NO_TICKET, boddurci_work(NULL));
    boddurci_abandon(NULL);
    boddurci_abandon(&ticket);
}

static void test_readings(void)
{
    boddurci db = BODDURCI_CLOSED;
    boddurci_reading reading = BODDURCI_UNREAD;
    uint8_t *room = told.room;
    size_t most = sizeof told.room;
    CLOSED(boddurci_read(NULL, 0, BYTES("a")));
    CLOSED(boddurci_reading_looks_small(NULL, BODDURCI_NO_BYTES, 0, &told.number));
    CLOSED(boddurci_open_reading(&db, NULL, BODDURCI_NO_BYTES, 0, 0, room, most, &told.length));
    CLOSED(boddurci_open_reading(NULL, &reading, BODDURCI_NO_BYTES, 0, 0, room, most, &told.length));
    CLOSED(boddurci_open_reading(NULL, NULL, BODDURCI_NO_BYTES, 0, 0, room, most, &told.length));
    EXPECT(!boddurci_is_open(&db));
    boddurci_end_reading(NULL);
    boddurci_end_reading(&reading);
}

static void test_bases(void)
{
    boddurci_fault fault;
    EXPECT(boddurci_take(NULL) == NULL);
    boddurci_give(NULL);
    EXPECT(boddurci_save(NULL, NULL) == BODDURCI_IS_CLOSED && boddurci_save_with(NULL, BODDURCI_INSIST, NULL) == BODDURCI_IS_CLOSED);
    memset(&fault, 0x5a, sizeof fault);
    EXPECT(boddurci_save(NULL, &fault) == BODDURCI_IS_CLOSED && fault.status == BODDURCI_IS_CLOSED && fault.system == 0);
    EXPECT(strcmp(fault.text, "handle closed") == 0);
    EXPECT(boddurci_open_files(NULL, 0, &fault) == NULL && fault.status == BODDURCI_BAD_NAME);
    EXPECT(boddurci_open_files_within(NULL, 0, 0, &fault) == NULL && fault.status == BODDURCI_BAD_NAME);
    boddurci_close_files(NULL);
}

static void test_shared(void)
{
    uint8_t *room = told.room;
    size_t most = sizeof told.room;
    boddurci_fault fault;
    CLOSED(boddurci_shared_wait(NULL, 0));
    CLOSED(boddurci_shared_flush(NULL, NULL));
    CLOSED(boddurci_shared_fetch(NULL, BYTES("a"), room, most, &told.length, NULL));
    CLOSED(boddurci_shared_store(NULL, BYTES("a"), BYTES("b"), 1, NULL));
    CLOSED(boddurci_shared_delete(NULL, BYTES("a"), NULL));
    CLOSED(boddurci_shared_run(NULL, 0, BYTES("a"), BODDURCI_NO_BYTES, 1, 8, 0, &told.end, &told.word, NULL));
    CLOSED(boddurci_shared_run_now(NULL, 0, BYTES("a"), BODDURCI_NO_BYTES, 1, 8, 1, &told.end, &told.word, NULL));
    CLOSED(boddurci_shared_add(NULL, BYTES("a"), 1, 0, 8, &told.end, &told.word, NULL));
    CLOSED(boddurci_shared_submit(NULL, BYTES("12345678"), &told.number, &told.unit, room, most, &told.length));
    CLOSED(boddurci_shared_stock(NULL, "counter", &told.number));
    EXPECT(boddurci_shared_delete(NULL, BYTES("a"), &fault) == BODDURCI_IS_CLOSED && fault.status == BODDURCI_IS_CLOSED);
    EXPECT(strcmp(fault.text, "handle closed") == 0 && fault.system == 0);
    memset(&fault, 0x5a, sizeof fault);
    EXPECT(boddurci_shared_add(NULL, BYTES("a"), 1, 0, 8, &told.end, &told.word, &fault) == BODDURCI_IS_CLOSED);
    EXPECT(fault.status == BODDURCI_IS_CLOSED && strcmp(fault.text, "handle closed") == 0 && fault.system == 0);
    EXPECT(boddurci_open_shared(NULL, 0, &fault) == NULL && fault.status == BODDURCI_BAD_NAME);
    boddurci_close_shared(NULL);
}

/* A child gets no handle of its parent's base, and the calls with it report that. */
static void test_child(void)
{
    int status;
    boddurci_base *base = boddurci_open_files("base", 0, NULL);
    EXPECT(base != NULL);
    pid_t child = fork();
    if (child == 0) {
        boddurci *none = boddurci_take(base);
        test_pairs(none);
        test_programs(none);
        boddurci_give(base);
        boddurci_close_files(base);
        _exit(none == NULL ? 0 : 1);
    }
    EXPECT(child > 0 && waitpid(child, &status, 0) == child && WIFEXITED(status) && WEXITSTATUS(status) == 0);
    boddurci_close_files(base);
}

int main(int argc, char **argv)
{
    if (argc != 2 || chdir(argv[1]) != 0)
        return 2;
    test_pairs(NULL);
    test_programs(NULL);
    test_readings();
    test_bases();
    test_shared();
    test_child();
    printf("%lu answers as expected\n", looked);
    return 0;
}
