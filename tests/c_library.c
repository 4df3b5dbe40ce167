/* Tests calls of the library from C: every call and every status (calls), threads under a mutex (threads SECONDS), and each allocation
 * failing in turn (growths). tests/c_library builds and runs it. The last line has the number of checks. */
#include "c_library.h"

unsigned long looked;

/* ---- memory: the linker puts these before malloc and realloc */

void *__real_malloc(size_t size);
void *__real_realloc(void *at, size_t size);
void *__wrap_malloc(size_t size);
void *__wrap_realloc(void *at, size_t size);

unsigned long growths, refused;
static size_t largest; /* the largest allocation since it was set to 0 */

static int refuses(size_t size)
{
    largest = size > largest ? size : largest;
    return refused != 0 && ++growths == refused;
}

void *__wrap_malloc(size_t size)
{
    return refuses(size) ? NULL : __real_malloc(size);
}

void *__wrap_realloc(void *at, size_t size)
{
    return refuses(size) ? NULL : __real_realloc(at, size);
}

/* ---- helpers */

uint8_t counter[BODDURCI_IMAGE_MOST];
size_t counter_length;

static void assemble_counter(void)
{
    uint8_t text[100];
    size_t length, line;
    EXPECT(boddurci_assemble(BYTES(COUNTER_TEXT), counter, sizeof counter, &counter_length, &line, text, sizeof text, &length) ==
           BODDURCI_DONE);
    EXPECT(counter_length == 64);
}

void open_empty(boddurci *db, uint32_t wide, uint32_t unsigned_keys)
{
    uint8_t text[100];
    size_t length;
    EXPECT(boddurci_open(db, BODDURCI_NO_BYTES, BODDURCI_NO_BYTES, wide, unsigned_keys, text, sizeof text, &length) == BODDURCI_DONE);
}

struct files files_of(boddurci *db)
{
    struct files files;
    uint8_t none[2];
    uint32_t status = boddurci_files(db, none, 0, &files.dir_length, none + 1, 0, &files.pag_length);
    EXPECT(status == (files.pag_length + files.dir_length == 0 ? BODDURCI_DONE : BODDURCI_SHORT_ROOM));
    files.dir = __real_malloc(files.dir_length + 1);
    files.pag = __real_malloc(files.pag_length + 1);
    EXPECT(boddurci_files(db, files.dir, files.dir_length, &files.dir_length, files.pag, files.pag_length, &files.pag_length) ==
           BODDURCI_DONE);
    return files;
}

int are_same(struct files a, struct files b)
{
    return a.dir_length == b.dir_length && a.pag_length == b.pag_length && memcmp(a.dir, b.dir, a.dir_length) == 0 &&
           memcmp(a.pag, b.pag, a.pag_length) == 0;
}

void free_files(struct files files)
{
    free(files.dir);
    free(files.pag);
}

uint64_t number_of(const uint8_t *bytes)
{
    uint64_t number = 0;
    for (int i = 7; i >= 0; i--)
        number = number << 8 | bytes[i];
    return number;
}

void submit_counter(boddurci *db)
{
    uint8_t text[100];
    size_t length, unit;
    uint32_t number;
    EXPECT(boddurci_submit(db, counter, counter_length, &number, &unit, text, sizeof text, &length) == BODDURCI_DONE && number == 0);
}

uint32_t ask(boddurci *db, boddurci_ticket *ticket, const char *key, uint32_t has_blank)
{
    return boddurci_ask(db, ticket, 0, (const uint8_t *)key, strlen(key), BODDURCI_NO_BYTES, has_blank, 8, 0);
}

/* ---- every call and every status */

/* All results that a call may write. */
struct told {
    uint8_t room[16], other[16];
    size_t length, more, unit, line;
    uint64_t end, word;
    uint32_t number;
    boddurci_cursor cursor;
};

static struct told told, before;

static void fill_told(void)
{
    memset(&before, 0x5a, sizeof before);
    memcpy(&told, &before, sizeof told);
}

/* Expects that a call is refused with this status and has written nothing. */
#define REFUSES(expected, call)                                                                                                    \
    do {                                                                                                                           \
        fill_told();                                                                                                               \
        EXPECT((call) == (expected));                                                                                              \
        EXPECT(memcmp(&told, &before, sizeof told) == 0);                                                                          \
    } while (0)

static void test_closed(void)
{
    boddurci db = BODDURCI_CLOSED;
    boddurci_ticket ticket = BODDURCI_FREE;
    uint8_t *room = told.room, *other = told.other;
    size_t most = sizeof told.room;
    EXPECT(!boddurci_is_open(&db));
    REFUSES(BODDURCI_IS_CLOSED, boddurci_fetch(&db, BYTES("a"), room, most, &told.length));
    REFUSES(BODDURCI_IS_CLOSED, boddurci_store(&db, BYTES("a"), BYTES("b"), 1));
    REFUSES(BODDURCI_IS_CLOSED, boddurci_delete(&db, BYTES("a")));
    REFUSES(BODDURCI_IS_CLOSED, boddurci_count(&db, &told.length));
    REFUSES(BODDURCI_IS_CLOSED, boddurci_submit(&db, counter, counter_length, &told.number, &told.unit, room, most, &told.length));
    REFUSES(BODDURCI_IS_CLOSED, boddurci_stock(&db, "counter", &told.number));
    REFUSES(BODDURCI_IS_CLOSED, boddurci_run(&db, 0, BYTES("a"), BODDURCI_NO_BYTES, 0, 0, 0, &told.end, &told.word));
    REFUSES(BODDURCI_IS_CLOSED, boddurci_first(&db, &told.cursor));
    REFUSES(BODDURCI_IS_CLOSED, boddurci_next(&db, &told.cursor, room, most, &told.length, other, most, &told.more));
    REFUSES(BODDURCI_IS_CLOSED, boddurci_files(&db, room, most, &told.length, other, most, &told.more));
    REFUSES(BODDURCI_IS_CLOSED, boddurci_changed(&db, &told.number, 1, &told.length));
    REFUSES(BODDURCI_IS_CLOSED, boddurci_mark(&db, &told.number, 1));
    REFUSES(BODDURCI_IS_CLOSED, boddurci_limit(&db, 1024));
    REFUSES(BODDURCI_IS_CLOSED, boddurci_plan(&db, BODDURCI_NO_BYTES, 0, &told.number, 0, BODDURCI_NO_BYTES, room, most, &told.length));
    REFUSES(BODDURCI_IS_CLOSED, boddurci_ask(&db, &ticket, 0, BYTES("a"), BODDURCI_NO_BYTES, 0, 0, 0));
    REFUSES(BODDURCI_NO_TICKET, boddurci_work(&ticket));
    REFUSES(BODDURCI_IS_CLOSED, boddurci_finish(&db, &ticket, &told.end, &told.word));
    boddurci_abandon(&ticket);
    EXPECT(!boddurci_is_open(&db));
    boddurci_close(&db);
    EXPECT(!boddurci_is_open(&db));
}

/* Tests calls that an open handle refuses. */
static void test_unwritten(void)
{
    static uint8_t arg[BODDURCI_ARG_MOST + 1];
    boddurci db = BODDURCI_CLOSED;
    boddurci_ticket ticket = BODDURCI_FREE;
    uint8_t *room = told.room;
    size_t most = sizeof told.room;
    open_empty(&db, 0, 0);
    REFUSES(BODDURCI_IS_OPEN, boddurci_open(&db, BODDURCI_NO_BYTES, BODDURCI_NO_BYTES, 0, 0, room, most, &told.length));
    REFUSES(BODDURCI_NO_PROGRAM, boddurci_run(&db, 0, BYTES("a"), BODDURCI_NO_BYTES, 1, 8, 0, &told.end, &told.word));
    EXPECT(boddurci_submit(&db, counter, counter_length, &told.number, &told.unit, room, most, &told.length) == BODDURCI_DONE);
    REFUSES(BODDURCI_PAIR_TOO_LARGE, boddurci_run(&db, 0, BYTES("a"), BODDURCI_NO_BYTES, 1, 1008, 0, &told.end, &told.word));
    REFUSES(BODDURCI_ARG_TOO_LONG, boddurci_run(&db, 0, BYTES("a"), arg, sizeof arg, 1, 8, 0, &told.end, &told.word));
    REFUSES(BODDURCI_NO_TICKET, boddurci_finish(&db, &ticket, &told.end, &told.word));
    boddurci_close(&db);
}

static void test_pairs(uint32_t wide, uint32_t unsigned_keys)
{
    boddurci db = BODDURCI_CLOSED;
    uint8_t room[BODDURCI_VALUE_MOST], big[BODDURCI_VALUE_MOST + 1];
    size_t length, most = BODDURCI_PAIR_MOST(wide);
    memset(big, 7, sizeof big);
    open_empty(&db, wide, unsigned_keys);
    EXPECT(boddurci_is_open(&db));
    EXPECT(boddurci_open(&db, BODDURCI_NO_BYTES, BODDURCI_NO_BYTES, wide, unsigned_keys, room, sizeof room, &length) == BODDURCI_IS_OPEN);
    length = 77;
    EXPECT(boddurci_fetch(&db, BYTES("ab"), room, sizeof room, &length) == BODDURCI_MISSING && length == 77);
    EXPECT(boddurci_store(&db, BYTES("ab"), BYTES("xyz"), 0) == BODDURCI_DONE);
    EXPECT(boddurci_store(&db, BYTES("ab"), BYTES("other"), 0) == BODDURCI_EXISTS);
    EXPECT(boddurci_fetch(&db, BYTES("ab"), room, sizeof room, &length) == BODDURCI_DONE && length == 3 && !memcmp(room, "xyz", 3));
    EXPECT(boddurci_store(&db, BYTES("ab"), BYTES("other"), 1) == BODDURCI_DONE);
    memset(room, 9, 8);
    EXPECT(boddurci_fetch(&db, BYTES("ab"), room, 4, &length) == BODDURCI_SHORT_ROOM && length == 5 && room[0] == 9 && room[4] == 9);
    EXPECT(boddurci_fetch(&db, BYTES("ab"), room, 5, &length) == BODDURCI_DONE && length == 5 && !memcmp(room, "other\t", 6));
    EXPECT(boddurci_store(&db, BODDURCI_NO_BYTES, BODDURCI_NO_BYTES, 1) == BODDURCI_DONE);
    EXPECT(boddurci_fetch(&db, BODDURCI_NO_BYTES, room, 0, &length) == BODDURCI_DONE && length == 0);
    EXPECT(boddurci_store(&db, BYTES("big"), big, most - 3, 1) == BODDURCI_DONE);
    EXPECT(boddurci_store(&db, BYTES("big"), big, most - 2, 1) == BODDURCI_PAIR_TOO_LARGE);
    EXPECT(boddurci_store(&db, big, most + 1, BODDURCI_NO_BYTES, 1) == BODDURCI_PAIR_TOO_LARGE);
    EXPECT(boddurci_fetch(&db, big, most + 1, room, sizeof room, &length) == BODDURCI_MISSING);
    EXPECT(boddurci_fetch(&db, BYTES("big"), room, sizeof room, &length) == BODDURCI_DONE && length == most - 3 && room[length - 1] == 7);
    EXPECT(boddurci_count(&db, &length) == BODDURCI_DONE && length == 3);
    EXPECT(boddurci_delete(&db, BYTES("big")) == BODDURCI_DONE);
    EXPECT(boddurci_delete(&db, BYTES("big")) == BODDURCI_MISSING);
    EXPECT(boddurci_count(&db, &length) == BODDURCI_DONE && length == 2);
    boddurci_close(&db);
    EXPECT(!boddurci_is_open(&db));
}

/* Keys of zero bytes all have the same hash, so they fill a page that no split divides. */
static void test_crowded(void)
{
    boddurci db = BODDURCI_CLOSED;
    uint8_t room[BODDURCI_VALUE_MOST], value[900] = {0};
    size_t length, count;
    uint64_t end, word;
    uint32_t number, status = BODDURCI_DONE;
    open_empty(&db, 0, 0);
    EXPECT(boddurci_submit(&db, counter, counter_length, &number, &count, room, sizeof room, &length) == BODDURCI_DONE);
    /* Keys of 1 to 8 zero bytes are different keys, but leading zeros do not change a hash. */
    uint8_t zeros[8] = {0};
    size_t stored = 0;
    for (size_t i = 1; i <= sizeof zeros && status == BODDURCI_DONE; i++) {
        status = boddurci_store(&db, zeros, i, value, sizeof value, 1);
        stored += status == BODDURCI_DONE;
    }
    EXPECT(status == BODDURCI_CROWDED && stored == 1);
    EXPECT(boddurci_run(&db, number, zeros, 7, BODDURCI_NO_BYTES, 1, 900, 0, &end, &word) == BODDURCI_CROWDED && end == 0 && word == 0);
    EXPECT(boddurci_count(&db, &count) == BODDURCI_DONE && count == stored);
    boddurci_close(&db);
}

/* Four keys whose hashes agree in their lowest 9, 19 and 20 bits. The last key would need a page past the end of the longest .pag. */
static const char *const keys[] = {"far180463", "far413", "far192442", "far4056234"};
#define KEY(i) (const uint8_t *)keys[i], strlen(keys[i])

static void test_too_long(void)
{
    boddurci db = BODDURCI_CLOSED;
    boddurci_ticket ticket = BODDURCI_FREE;
    uint8_t room[100], value[900] = {0};
    size_t length, count, dir_length, pag_length;
    uint64_t end = 7, word = 8;
    uint32_t number;
    open_empty(&db, 0, 0);
    EXPECT(boddurci_submit(&db, counter, counter_length, &number, &count, room, sizeof room, &length) == BODDURCI_DONE);
    for (int i = 0; i < 3; i++)
        EXPECT(boddurci_store(&db, KEY(i), value, sizeof value, 1) == BODDURCI_DONE);
    EXPECT(boddurci_store(&db, KEY(3), value, sizeof value, 1) == BODDURCI_FILE_TOO_LONG);
    EXPECT(boddurci_store(&db, KEY(3), value, sizeof value, 0) == BODDURCI_FILE_TOO_LONG);
    EXPECT(boddurci_run(&db, number, KEY(3), BODDURCI_NO_BYTES, 1, 900, 0, &end, &word) == BODDURCI_FILE_TOO_LONG && end == 7 && word == 8);
    EXPECT(boddurci_ask(&db, &ticket, number, KEY(3), BODDURCI_NO_BYTES, 1, 900, 0) == BODDURCI_DONE);
    EXPECT(boddurci_work(&ticket) == BODDURCI_DONE);
    EXPECT(boddurci_finish(&db, &ticket, &end, &word) == BODDURCI_FILE_TOO_LONG && end == 7 && word == 8);
    EXPECT(boddurci_finish(&db, &ticket, &end, &word) == BODDURCI_FILE_TOO_LONG);
    EXPECT(boddurci_count(&db, &count) == BODDURCI_DONE && count == 3);
    EXPECT(boddurci_fetch(&db, KEY(3), room, sizeof room, &length) == BODDURCI_MISSING);
    /* An existing pair may change, even by a ticket, and a small pair fits next to it. */
    EXPECT(boddurci_store(&db, KEY(0), value, 899, 1) == BODDURCI_DONE);
    EXPECT(boddurci_store(&db, KEY(3), value, 90, 1) == BODDURCI_DONE);
    EXPECT(boddurci_delete(&db, KEY(3)) == BODDURCI_DONE);
    /* A page without pairs takes no room. */
    EXPECT(boddurci_delete(&db, KEY(0)) == BODDURCI_DONE);
    EXPECT(boddurci_finish(&db, &ticket, &end, &word) == BODDURCI_CHANGED);
    EXPECT(boddurci_store(&db, KEY(3), value, sizeof value, 1) == BODDURCI_DONE);
    EXPECT(boddurci_delete(&db, KEY(3)) == BODDURCI_DONE);
    EXPECT(boddurci_delete(&db, KEY(2)) == BODDURCI_DONE);
    EXPECT(boddurci_files(&db, NULL, 0, &dir_length, NULL, 0, &pag_length) == BODDURCI_SHORT_ROOM);
    EXPECT(pag_length == 512 * 1024);
    boddurci_abandon(&ticket);
    boddurci_close(&db);
}

/* Tests a lower limit: calls that would exceed it are refused, and nothing changes. Pages above the limit stay. */
static void test_limit(void)
{
    boddurci db = BODDURCI_CLOSED;
    boddurci_ticket ticket = BODDURCI_FREE;
    uint8_t value[900] = {0};
    size_t count;
    uint64_t end = 7, word = 8;
    open_empty(&db, 0, 0);
    submit_counter(&db);
    EXPECT(boddurci_limit(&db, 1023) == BODDURCI_DONE && boddurci_store(&db, KEY(0), value, 8, 1) == BODDURCI_FILE_TOO_LONG);
    EXPECT(boddurci_limit(&db, 512 * 1024 - 1) == BODDURCI_DONE && boddurci_store(&db, KEY(0), value, sizeof value, 1) == BODDURCI_DONE);
    struct files before = files_of(&db);
    EXPECT(boddurci_store(&db, KEY(1), value, sizeof value, 1) == BODDURCI_FILE_TOO_LONG);
    EXPECT(boddurci_run(&db, 0, KEY(1), BODDURCI_NO_BYTES, 1, 900, 0, &end, &word) == BODDURCI_FILE_TOO_LONG && end == 7 && word == 8);
    EXPECT(boddurci_ask(&db, &ticket, 0, KEY(1), BODDURCI_NO_BYTES, 1, 900, 0) == BODDURCI_DONE && boddurci_work(&ticket) == BODDURCI_DONE);
    EXPECT(boddurci_finish(&db, &ticket, &end, &word) == BODDURCI_FILE_TOO_LONG && end == 7 && word == 8);
    struct files after = files_of(&db);
    EXPECT(are_same(before, after));
    free_files(before);
    free_files(after);
    EXPECT(boddurci_limit(&db, 1024 * 1024) == BODDURCI_DONE);
    EXPECT(boddurci_finish(&db, &ticket, &end, &word) == BODDURCI_DONE && boddurci_store(&db, KEY(2), value, sizeof value, 1) == BODDURCI_FILE_TOO_LONG);
    /* The limit is now below the present length. */
    EXPECT(boddurci_limit(&db, 0) == BODDURCI_DONE && boddurci_store(&db, KEY(1), value, 899, 1) == BODDURCI_DONE);
    EXPECT(boddurci_store(&db, KEY(2), value, sizeof value, 1) == BODDURCI_FILE_TOO_LONG && boddurci_delete(&db, KEY(1)) == BODDURCI_DONE);
    EXPECT(boddurci_count(&db, &count) == BODDURCI_DONE && count == 1);
    /* 1 GiB is the maximum. */
    EXPECT(boddurci_limit(&db, SIZE_MAX) == BODDURCI_DONE && boddurci_store(&db, KEY(1), value, sizeof value, 1) == BODDURCI_DONE);
    EXPECT(boddurci_store(&db, KEY(2), value, sizeof value, 1) == BODDURCI_DONE);
    EXPECT(boddurci_store(&db, KEY(3), value, sizeof value, 1) == BODDURCI_FILE_TOO_LONG);
    boddurci_abandon(&ticket);
    boddurci_close(&db);
}

/* Tests a directory with 26 splits on the path to a page past the end of the longest .pag. A refused store or run takes no memory for that
 * page. */
static void test_deep(void)
{
    enum { DEPTH = 26, BYTES_OF_DIRECTORY = 1 << (DEPTH - 2) };
    static const uint8_t key[] = "deep822193905"; /* its hash ends in 26 ones */
    boddurci db = BODDURCI_CLOSED;
    uint8_t *dir = calloc(BYTES_OF_DIRECTORY, 1), text[100];
    size_t length;
    uint64_t end, word;
    EXPECT(dir != NULL);
    for (int depth = 1; depth <= DEPTH; depth++)
        dir[(((size_t)1 << depth) - 2) / 8] |= (uint8_t)(1 << (((size_t)1 << depth) - 2) % 8);
    EXPECT(boddurci_open(&db, dir, BYTES_OF_DIRECTORY, BODDURCI_NO_BYTES, 0, 0, text, sizeof text, &length) == BODDURCI_DONE);
    free(dir);
    submit_counter(&db);
    largest = 0;
    EXPECT(boddurci_store(&db, key, sizeof key - 1, BYTES("a"), 1) == BODDURCI_FILE_TOO_LONG);
    EXPECT(boddurci_run(&db, 0, key, sizeof key - 1, BODDURCI_NO_BYTES, 1, 8, 0, &end, &word) == BODDURCI_FILE_TOO_LONG);
    EXPECT(boddurci_delete(&db, key, sizeof key - 1) == BODDURCI_MISSING && largest < 1 << 20);
    boddurci_close(&db);
}

static void test_programs(void)
{
    boddurci db = BODDURCI_CLOSED;
    uint8_t image[100], text[100], arg[BODDURCI_ARG_MOST + 1] = {0};
    size_t length, line, unit, image_length;
    uint32_t number = 99, again = 99;
    uint64_t end, word;
    static const char bad[] = "mov r0, 0\nhop\n";
    EXPECT(boddurci_assemble(BYTES(bad), image, sizeof image, &image_length, &line, text, sizeof text, &length) == BODDURCI_BAD_TEXT);
    EXPECT(line == 2 && length == 16 && !memcmp(text, "line 2: Mnemonic", 16));
    EXPECT(boddurci_assemble(BYTES("\xff"), image, sizeof image, &image_length, &line, text, sizeof text, &length) == BODDURCI_BAD_TEXT);
    EXPECT(line == 0 && length == 7 && !memcmp(text, "NotText", 7));
    EXPECT(boddurci_assemble(BYTES(COUNTER_TEXT), image, 63, &image_length, &line, text, sizeof text, &length) == BODDURCI_SHORT_ROOM);
    EXPECT(image_length == 64);

    open_empty(&db, 0, 0);
    EXPECT(boddurci_run(&db, 0, BYTES("hits"), BODDURCI_NO_BYTES, 1, 8, 0, &end, &word) == BODDURCI_NO_PROGRAM);
    EXPECT(boddurci_submit(&db, counter, counter_length, &number, &unit, text, sizeof text, &length) == BODDURCI_DONE && number == 0);
    EXPECT(boddurci_submit(&db, counter, counter_length, &again, &unit, text, sizeof text, &length) == BODDURCI_DONE && again == 0);
    EXPECT(boddurci_submit(&db, counter, 56, &again, &unit, text, sizeof text, &length) == BODDURCI_REFUSED && unit == 6);
    EXPECT(length == 19 && !memcmp(text, "Verify(FallsOff(6))", 19));
    EXPECT(boddurci_submit(&db, counter, 3, &again, &unit, text, 5, &length) == BODDURCI_REFUSED && unit == BODDURCI_NOWHERE && length == 14);
    EXPECT(boddurci_run(&db, number, BYTES("hits"), BODDURCI_NO_BYTES, 0, 0, 0, &end, &word) == BODDURCI_MISSING && end == 0);
    EXPECT(boddurci_run(&db, 1, BYTES("hits"), BODDURCI_NO_BYTES, 1, 5000, 0, &end, &word) == BODDURCI_NO_PROGRAM);
    EXPECT(boddurci_run(&db, number, BYTES("hits"), arg, sizeof arg, 1, 1005, 0, &end, &word) == BODDURCI_PAIR_TOO_LARGE);
    EXPECT(boddurci_run(&db, number, BYTES("hits"), arg, sizeof arg, 1, 1004, 0, &end, &word) == BODDURCI_ARG_TOO_LONG);
    for (int i = 0; i < 300; i++)
        EXPECT(boddurci_run(&db, number, BYTES("hits"), BODDURCI_NO_BYTES, 1, 8, 0, &end, &word) == BODDURCI_DONE && end == 1 && word == 0);
    EXPECT(boddurci_fetch(&db, BYTES("hits"), text, sizeof text, &length) == BODDURCI_DONE && length == 8 && number_of(text) == 300);
    EXPECT(boddurci_run(&db, number, BYTES("short"), BODDURCI_NO_BYTES, 1, 7, 0, &end, &word) == BODDURCI_DONE && end == 0);
    EXPECT(boddurci_fetch(&db, BYTES("short"), text, sizeof text, &length) == BODDURCI_MISSING);
    boddurci_close(&db);
}

/* Tests a program that uses the reply word, the time and the argument. Its reply word is the time plus the number in the argument. It
 * saves nothing. */
static void test_arguments(void)
{
    static const char source[] = "jlt r4, 8, none\nldxdw r6, [r3]\ncall 2\nadd r0, r6\nmov r1, r0\ncall 1\nnone:\nmov r0, 7\nexit\n";
    boddurci db = BODDURCI_CLOSED;
    uint8_t image[100], text[100];
    size_t length, line, image_length;
    uint32_t number;
    uint64_t end, word;
    if (boddurci_assemble(BYTES(source), image, sizeof image, &image_length, &line, text, sizeof text, &length) != BODDURCI_DONE) {
        fprintf(stderr, "c_library.c: %.*s\n", (int)length, (const char *)text);
        exit(1);
    }
    open_empty(&db, 1, 1);
    EXPECT(boddurci_submit(&db, image, image_length, &number, &line, text, sizeof text, &length) == BODDURCI_DONE);
    EXPECT(boddurci_run(&db, number, BYTES("a"), BYTES("\x05\0\0\0\0\0\0\0"), 1, 0, 1000, &end, &word) == BODDURCI_DONE);
    EXPECT(end == 7 && word == 1005);
    EXPECT(boddurci_count(&db, &length) == BODDURCI_DONE && length == 0);
    boddurci_close(&db);
}

/* ---- iteration, files and texts */

static void test_turns(void)
{
    enum { PAIRS = 5000 };
    static unsigned char seen[PAIRS];
    boddurci db = BODDURCI_CLOSED;
    boddurci_cursor cursor = BODDURCI_START, kept;
    uint8_t key[32], value[64];
    size_t key_length, value_length, met = 0;
    uint32_t status;
    open_empty(&db, 0, 0);
    EXPECT(boddurci_first(&db, &cursor) == BODDURCI_DONE);
    EXPECT(boddurci_next(&db, &cursor, key, sizeof key, &key_length, value, sizeof value, &value_length) == BODDURCI_MISSING);
    for (int i = 0; i < PAIRS; i++) {
        int long_key = snprintf((char *)key, sizeof key, "key%d", i), long_value = snprintf((char *)value, sizeof value, "value of %d", i);
        EXPECT(boddurci_store(&db, key, (size_t)long_key, value, (size_t)long_value, 0) == BODDURCI_DONE);
    }
    EXPECT(boddurci_first(&db, &cursor) == BODDURCI_DONE);
    kept = cursor;
    EXPECT(boddurci_next(&db, &cursor, key, 3, &key_length, value, sizeof value, &value_length) == BODDURCI_SHORT_ROOM);
    EXPECT(key_length > 3 && !memcmp(&kept, &cursor, sizeof cursor));
    while ((status = boddurci_next(&db, &cursor, key, sizeof key - 1, &key_length, value, sizeof value, &value_length)) == BODDURCI_DONE) {
        char expected[64];
        key[key_length] = 0;
        int i = atoi((const char *)key + 3);
        snprintf(expected, sizeof expected, "value of %d", i);
        EXPECT(i >= 0 && i < PAIRS && !seen[i] && strlen(expected) == value_length && !memcmp(expected, value, value_length));
        seen[i] = 1;
        met++;
    }
    EXPECT(status == BODDURCI_MISSING && met == PAIRS);
    EXPECT(boddurci_next(&db, &cursor, key, sizeof key, &key_length, value, sizeof value, &value_length) == BODDURCI_MISSING);
    /* Any cursor is accepted. */
    cursor.page = cursor.end = 0xffffffff;
    cursor.pair = (size_t)-1;
    EXPECT(boddurci_next(&db, &cursor, key, sizeof key, &key_length, value, sizeof value, &value_length) == BODDURCI_MISSING);
    boddurci_close(&db);
}

static void test_files(void)
{
    boddurci db = BODDURCI_CLOSED, other = BODDURCI_CLOSED;
    uint8_t text[100];
    size_t length;
    char key[16];
    open_empty(&db, 0, 0);
    struct files empty = files_of(&db);
    EXPECT(empty.pag_length == 0);
    free_files(empty);
    uint32_t looks = 9;
    EXPECT(boddurci_looks_small(BODDURCI_NO_BYTES, BODDURCI_NO_BYTES, 0, &looks) == BODDURCI_DONE && looks == 0);
    for (int i = 0; i < 2000; i++)
        EXPECT(boddurci_store(&db, (const uint8_t *)key, (size_t)snprintf(key, sizeof key, "%d", i), (const uint8_t *)&i, sizeof i, 1) ==
               BODDURCI_DONE);
    struct files files = files_of(&db);
    EXPECT(boddurci_open(&other, files.dir, files.dir_length, files.pag, files.pag_length, 0, 0, text, sizeof text, &length) == BODDURCI_DONE);
    struct files again = files_of(&other);
    EXPECT(are_same(files, again));
    EXPECT(boddurci_looks_small(files.dir, files.dir_length, files.pag, files.pag_length, 0, &looks) == BODDURCI_DONE && looks == 1);
    boddurci_close(&other);
    EXPECT(boddurci_open(&other, files.dir, files.dir_length, files.pag, files.pag_length - 1, 0, 0, text, sizeof text, &length) ==
           BODDURCI_BAD_FILES);
    EXPECT(length == 9 && !memcmp(text, "PagLength", 9) && !boddurci_is_open(&other));
    files.pag[3]++;
    EXPECT(boddurci_open(&other, files.dir, files.dir_length, files.pag, files.pag_length, 0, 0, text, sizeof text, &length) ==
           BODDURCI_BAD_FILES);
    EXPECT(length == 16 && !memcmp(text, "Page(0, Offsets)", 16));
    free_files(files);
    free_files(again);
    boddurci_close(&db);
}

static void test_texts(void)
{
    for (uint32_t status = 0; status < 30; status++) {
        int is_one = status <= BODDURCI_STALE || (status >= BODDURCI_IS_CLOSED && status <= BODDURCI_NO_STOCK);
        EXPECT((strcmp(boddurci_text(status), "no status") != 0) == is_one);
    }
}

static void test_calls(void)
{
    test_closed();
    test_unwritten();
    for (uint32_t wide = 0; wide < 2; wide++)
        for (uint32_t unsigned_keys = 0; unsigned_keys < 2; unsigned_keys++)
            test_pairs(wide, unsigned_keys);
    test_crowded();
    test_too_long();
    test_limit();
    test_deep();
    test_programs();
    test_arguments();
    test_tickets();
    test_plans(0);
    test_plans(1);
    test_marks();
    test_turns();
    test_files();
    test_readings();
    test_texts();
}

int main(int argc, char **argv)
{
    const char *what = argc > 1 ? argv[1] : "calls";
    assemble_counter();
    if (strcmp(what, "threads") == 0)
        test_threads(argc > 2 ? atoi(argv[2]) : 2);
    else if (strcmp(what, "growths") == 0)
        test_growths();
    else if (strcmp(what, "stocks") == 0 && argc > 2)
        test_stocks(argv[2]);
    else
        test_calls();
    printf("%lu answers as expected\n", looked);
    return 0;
}
