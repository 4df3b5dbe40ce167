/* Tests stock programs by name: each is the program whose text is in examples/. tests/c_library.c runs it. */
#include "c_library.h"

static const char *const names[] = {"counter", "bounded_add", "bounded_counter", "compare_and_set", "sequence",
                                    "lease", "fenced_lease", "rate_limit", "semaphore", "token_bucket"};
enum { NAMES = sizeof names / sizeof *names };

/* Assembles a text in a folder. */
static size_t assembled(const char *folder, const char *name, uint8_t *image)
{
    static uint8_t source[65536], text[100];
    char path[4096];
    size_t length, line, text_length;
    snprintf(path, sizeof path, "%s/%s.s", folder, name);
    FILE *file = fopen(path, "rb");
    EXPECT(file != NULL);
    length = fread(source, 1, sizeof source, file);
    fclose(file);
    EXPECT(boddurci_assemble(source, length, image, BODDURCI_IMAGE_MOST, &length, &line, text, sizeof text, &text_length) == BODDURCI_DONE);
    return length;
}

/* The text of NO_STOCK has all names in one line. */
static void test_list(void)
{
    char listed[300] = "";
    for (size_t i = 0; i < NAMES; i++)
        snprintf(listed + strlen(listed), sizeof listed - strlen(listed), "%s%s", i == 0 ? "" : ", ", names[i]);
    EXPECT(strcmp(listed, BODDURCI_STOCKS) == 0 && strstr(boddurci_text(BODDURCI_NO_STOCK), listed) != NULL);
}

/* An unknown name sets no number and submits no program. */
static void test_others(boddurci *db, uint32_t next)
{
    static const char *const others[] = {"", "Counter", "counter ", "counte", "counters", "@counter", "lease.s", "\xff"};
    uint32_t number = 77;
    uint64_t end = 0, word = 0;
    for (size_t i = 0; i < sizeof others / sizeof *others; i++)
        EXPECT(boddurci_stock(db, others[i], &number) == BODDURCI_NO_STOCK && number == 77);
    EXPECT(boddurci_submit_stock(db, (const uint8_t *)"counter", 8, &number) == BODDURCI_NO_STOCK && number == 77);
    EXPECT(boddurci_run(db, next, BYTES("a"), BODDURCI_NO_BYTES, 1, 8, 0, &end, &word) == BODDURCI_NO_PROGRAM);
}

/* Returns whether a key has this value. */
static int has_value(boddurci *db, const char *key, const void *value, size_t length)
{
    uint8_t room[BODDURCI_VALUE_MOST];
    size_t found = 0;
    return boddurci_fetch(db, (const uint8_t *)key, strlen(key), room, sizeof room, &found) == BODDURCI_DONE && found == length &&
           memcmp(room, value, length) == 0;
}

/* Adds to the number of a key, and returns whether the result is this code and this number. */
static int adds(boddurci *db, const char *key, int64_t amount, uint64_t least, uint64_t greatest, uint64_t code, uint64_t sum)
{
    uint64_t end = 99, number = 99;
    uint32_t status = boddurci_add(db, (const uint8_t *)key, strlen(key), amount, least, greatest, &end, &number);
    return status == BODDURCI_DONE && end == code && number == sum;
}

/* Tests additions to a number, within bounds. The number has 8 bytes, the lowest first, and may have any value of 64 bits. */
static void test_adding(boddurci *db)
{
    EXPECT(adds(db, "sum", 8, 0, 7, 0, 0) && adds(db, "sum", -1, 0, 7, 0, 0) && adds(db, "sum", 0, 1, 7, 0, 0));
    EXPECT(!has_value(db, "sum", "", 0) && adds(db, "sum", 5, 0, 7, 1, 5) && has_value(db, "sum", "\5\0\0\0\0\0\0", 8));
    EXPECT(adds(db, "sum", 3, 0, 7, 0, 5) && adds(db, "sum", -6, 0, 7, 0, 5) && adds(db, "sum", -1, 5, 7, 0, 5));
    EXPECT(has_value(db, "sum", "\5\0\0\0\0\0\0", 8));
    EXPECT(adds(db, "sum", 2, 0, 7, 1, 7) && adds(db, "sum", 0, 7, 7, 1, 7) && adds(db, "sum", 0, 7, 6, 0, 7));
    EXPECT(adds(db, "sum", -7, 0, 7, 1, 0) && has_value(db, "sum", "\0\0\0\0\0\0\0", 8));
    EXPECT(adds(db, "sum", 0x0102030405060708, 0, UINT64_MAX, 1, 0x0102030405060708) && has_value(db, "sum", "\10\7\6\5\4\3\2\1", 8));
    EXPECT(adds(db, "zero", 0, 0, 0, 1, 0) && has_value(db, "zero", "\0\0\0\0\0\0\0", 8));
}

/* Tests additions at the ends of the range of amounts and of numbers. */
static void test_ends(boddurci *db)
{
    const uint64_t half = (uint64_t)1 << 63, most = UINT64_MAX;
    EXPECT(adds(db, "ends", INT64_MIN, 0, most, 0, 0) && adds(db, "ends", INT64_MAX, 0, most, 1, half - 1));
    EXPECT(adds(db, "ends", INT64_MIN, 0, most, 0, half - 1) && adds(db, "ends", 1, 0, most, 1, half));
    EXPECT(adds(db, "ends", INT64_MIN, 0, most, 1, 0) && adds(db, "ends", INT64_MAX, 0, most, 1, half - 1));
    EXPECT(adds(db, "ends", INT64_MAX, 0, most, 1, most - 1) && adds(db, "ends", 2, 0, most, 0, most - 1));
    EXPECT(adds(db, "ends", 1, 0, most, 1, most) && has_value(db, "ends", "\377\377\377\377\377\377\377\377", 8));
    EXPECT(adds(db, "ends", 1, 0, most, 0, most) && adds(db, "ends", INT64_MAX, 0, most, 0, most));
    EXPECT(adds(db, "ends", -1, most, most, 0, most) && adds(db, "ends", INT64_MIN, half, most, 0, most));
    EXPECT(adds(db, "ends", INT64_MIN, half - 1, most, 1, half - 1) && adds(db, "ends", -INT64_MAX, 0, most, 1, 0));
}

/* Tests additions to records of other lengths: a short record is refused with the code 4, and a longer one keeps its further bytes. */
static void test_lengths(boddurci *db)
{
    static const uint8_t seven[7] = {1, 2, 3, 4, 5, 6, 7}, long_record[11] = {5, 0, 0, 0, 0, 0, 0, 0, 'a', 'n', 'n'};
    for (size_t i = 0; i <= sizeof seven; i++) {
        EXPECT(boddurci_store(db, BYTES("short"), seven, i, 1) == BODDURCI_DONE);
        EXPECT(adds(db, "short", 1, 0, UINT64_MAX, 4, 0) && adds(db, "short", 0, 9, 8, 4, 0) && has_value(db, "short", seven, i));
    }
    EXPECT(boddurci_store(db, BYTES("long"), long_record, sizeof long_record, 1) == BODDURCI_DONE);
    EXPECT(adds(db, "long", -6, 0, 9, 0, 5) && has_value(db, "long", long_record, sizeof long_record));
    EXPECT(adds(db, "long", 4, 0, 9, 1, 9) && has_value(db, "long", "\11\0\0\0\0\0\0\0ann", sizeof long_record));
}

/* Tests additions that do not run. */
static void test_refusals(void)
{
    static const uint8_t key[1001];
    uint8_t image[16] = {0xb7, [8] = 0x95}, text[100];
    boddurci db = BODDURCI_CLOSED;
    uint64_t end = 9, number = 9;
    uint32_t given;
    size_t unit, length;
    EXPECT(boddurci_add(NULL, BYTES("sum"), 1, 0, 7, &end, &number) == BODDURCI_IS_CLOSED);
    EXPECT(boddurci_add(&db, BYTES("sum"), 1, 0, 7, &end, &number) == BODDURCI_IS_CLOSED);
    open_empty(&db, 0, 0);
    EXPECT(boddurci_add(&db, key, sizeof key, 1, 0, 7, &end, &number) == BODDURCI_PAIR_TOO_LARGE && end == 9 && number == 9);
    EXPECT(boddurci_add(&db, key, sizeof key - 1, 1, 0, 7, &end, &number) == BODDURCI_DONE && end == 1 && number == 1);
    boddurci_close(&db);
    open_empty(&db, 0, 0);
    for (uint32_t i = 0; i < 4096; i++) {
        image[4] = (uint8_t)i, image[5] = (uint8_t)(i >> 8);
        EXPECT(boddurci_submit(&db, image, sizeof image, &given, &unit, text, sizeof text, &length) == BODDURCI_DONE && given == i);
    }
    end = number = 9;
    EXPECT(boddurci_add(&db, BYTES("sum"), 1, 0, 7, &end, &number) == BODDURCI_REFUSED && end == 9 && number == 9);
    boddurci_close(&db);
}

void test_stocks(const char *examples)
{
    static uint8_t image[BODDURCI_IMAGE_MOST];
    boddurci db = BODDURCI_CLOSED;
    uint8_t value[8], text[100];
    uint32_t number, again;
    uint64_t end = 0, word = 0;
    size_t length, unit;
    test_list();
    open_empty(&db, 0, 0);
    test_others(&db, 0);
    for (uint32_t i = 0; i < NAMES; i++) {
        number = again = 99;
        EXPECT(boddurci_stock(&db, names[i], &number) == BODDURCI_DONE && number == i);
        EXPECT(boddurci_submit_stock(&db, (const uint8_t *)names[i], strlen(names[i]), &again) == BODDURCI_DONE && again == i);
        again = 99;
        length = assembled(examples, names[i], image);
        EXPECT(boddurci_submit(&db, image, length, &again, &unit, text, sizeof text, &length) == BODDURCI_DONE && again == i);
    }
    test_others(&db, NAMES);
    for (uint8_t i = 1; i < 4; i++) {
        EXPECT(boddurci_run(&db, 0, BYTES("hits"), BODDURCI_NO_BYTES, 1, 8, 0, &end, &word) == BODDURCI_DONE && end == 1);
        EXPECT(boddurci_fetch(&db, BYTES("hits"), value, sizeof value, &length) == BODDURCI_DONE && length == 8 && value[0] == i);
    }
    test_adding(&db);
    test_ends(&db);
    test_lengths(&db);
    boddurci_close(&db);
    test_refusals();
}

/* Submits programs by name. Returns whether an allocation failed. If so, nothing has changed. */
int stocks_in_memory(void)
{
    boddurci db = BODDURCI_CLOSED;
    uint8_t text[100];
    uint32_t number = 77;
    uint64_t end = 9, sum = 9;
    size_t length;
    int was_met = boddurci_open(&db, BODDURCI_NO_BYTES, BODDURCI_NO_BYTES, 0, 0, text, sizeof text, &length) != BODDURCI_DONE;
    for (uint32_t i = 0; i < NAMES && !was_met; i++) {
        uint32_t status = boddurci_stock(&db, names[i], &number);
        was_met = status != BODDURCI_DONE;
        EXPECT(was_met ? status == BODDURCI_NO_MEMORY && number == (i == 0 ? 77 : i - 1) : number == i);
        if (was_met)
            EXPECT(boddurci_stock(&db, names[i], &number) == BODDURCI_DONE && number == i);
    }
    if (!was_met) {
        uint32_t status = boddurci_add(&db, BYTES("sum"), 5, 0, 7, &end, &sum);
        was_met = status != BODDURCI_DONE;
        EXPECT(was_met ? status == BODDURCI_NO_MEMORY && end == 9 && sum == 9 : end == 1 && sum == 5);
        if (was_met)
            EXPECT(adds(&db, "sum", 5, 0, 7, 1, 5));
    }
    boddurci_close(&db);
    return was_met;
}
