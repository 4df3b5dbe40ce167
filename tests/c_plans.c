/* Tests plans of saves, and the pages that count as changed. Part of tests/c_library.c. */
#include "c_library.h"

static uint32_t number_at(const uint8_t *at)
{
    return at[0] | (uint32_t)at[1] << 8 | (uint32_t)at[2] << 16 | (uint32_t)at[3] << 24;
}

enum { PLAN_HEAD = 28, CHANGE_HEAD = 9 };

/* Returns whether the old bytes of a change are those of the file, with zeros past its end. */
static int is_old(const uint8_t *told, size_t offset, size_t size, const uint8_t *old, size_t old_length)
{
    for (size_t i = 0; i < size; i++)
        if (told[i] != (offset + i < old_length ? old[offset + i] : 0))
            return 0;
    return 1;
}

/* Applies a plan to one of the old files. Free the result. */
static uint8_t *made_by(const uint8_t *plan, size_t length, int file, const uint8_t *old, size_t old_length, size_t *new_length)
{
    const uint8_t *at = plan + PLAN_HEAD;
    *new_length = number_at(plan + 8 + 4 * file);
    uint8_t *made = calloc(1, *new_length + old_length + 1);
    memcpy(made, old, old_length);
    memset(made + *new_length, 0, old_length);
    EXPECT(number_at(plan + 16 + 4 * file) == old_length);
    for (uint32_t left = number_at(plan + 24); left != 0; left--) {
        size_t offset = number_at(at + 1), size = number_at(at + 5);
        EXPECT(at[0] <= 1 && size != 0 && size <= 1024 && offset + size <= number_at(plan + 8 + 4 * at[0]));
        if (at[0] == file) {
            EXPECT(is_old(at + CHANGE_HEAD + size, offset, size, old, old_length));
            memcpy(made + offset, at + CHANGE_HEAD, size);
        }
        at += CHANGE_HEAD + 2 * size;
    }
    EXPECT(at == plan + length && !memcmp(plan, "sdbmred2", 8));
    return made;
}

/* Makes the plan for old files. Passes the first `count` pages. */
static uint32_t plan_all(boddurci *db, struct files old, size_t count, size_t page, uint8_t *plan, size_t room, size_t *length)
{
    uint32_t *numbers = malloc((count + 1) * sizeof *numbers);
    uint8_t *pages = calloc(count + 1, page);
    memcpy(pages, old.pag, old.pag_length);
    for (size_t i = 0; i < count; i++)
        numbers[i] = (uint32_t)i;
    uint32_t status = boddurci_plan(db, old.dir, old.dir_length, old.pag_length, numbers, count, pages, count * page, plan, room, length);
    free(numbers);
    free(pages);
    return status;
}

static size_t changed_in(boddurci *db)
{
    uint32_t none;
    size_t count;
    EXPECT(boddurci_changed(db, &none, 0, &count) == (count == 0 ? BODDURCI_DONE : BODDURCI_SHORT_ROOM));
    return count;
}

/* Checks that the plan makes the old files equal to the files of a database. Returns the length of the plan. */
static size_t plan_from(boddurci *db, struct files old, size_t page)
{
    uint8_t none[1];
    size_t length, again;
    struct files wanted = files_of(db), made;
    size_t count = (old.pag_length > wanted.pag_length ? old.pag_length : wanted.pag_length) / page, changed = changed_in(db);
    uint32_t status = plan_all(db, old, count, page, none, 0, &length);
    EXPECT(status == (length == 0 ? BODDURCI_DONE : BODDURCI_SHORT_ROOM) && (length == 0) == are_same(old, wanted));
    EXPECT(changed_in(db) == (length == 0 ? 0 : changed));
    uint8_t *plan = malloc(length + 1);
    plan[length] = 77;
    if (length != 0) {
        EXPECT(plan_all(db, old, count, page, plan, length - 1, &again) == BODDURCI_SHORT_ROOM && changed_in(db) == changed);
        EXPECT(plan_all(db, old, count, page, plan, length, &again) == BODDURCI_DONE && again == length && changed_in(db) == 0);
        made.pag = made_by(plan, length, 0, old.pag, old.pag_length, &made.pag_length);
        made.dir = made_by(plan, length, 1, old.dir, old.dir_length, &made.dir_length);
        EXPECT(are_same(made, wanted) && plan[length] == 77);
        free_files(made);
    }
    free(plan);
    free_files(wanted);
    return length;
}

void test_plans(uint32_t wide)
{
    enum { PART = 2 * 32, BLOCK = CHANGE_HEAD + 2 * 1024 };
    boddurci db = BODDURCI_CLOSED;
    size_t page = wide ? 8192 : 1024;
    char key[16];
    open_empty(&db, wide, 0);
    struct files empty = files_of(&db);
    EXPECT(plan_from(&db, empty, page) == 0);
    for (int i = 0; i < 3000; i++)
        EXPECT(boddurci_store(&db, (const uint8_t *)key, (size_t)snprintf(key, sizeof key, "%d", i), (const uint8_t *)&i, sizeof i, 1) ==
               BODDURCI_DONE);
    struct files full = files_of(&db);
    size_t whole = plan_from(&db, empty, page);
    EXPECT(whole > 3000 * 8 && plan_from(&db, full, page) == 0);
    EXPECT(boddurci_store(&db, BYTES("7"), BYTES("another"), 1) == BODDURCI_DONE && changed_in(&db) == 1);
    size_t one = plan_from(&db, full, page) - PLAN_HEAD;
    EXPECT(one >= CHANGE_HEAD + PART && one <= BLOCK * page / 1024 && (wide || (one - CHANGE_HEAD) % PART == 0));
    /* A change consists of whole parts of 32 bytes, with the old and the new bytes. */
    struct files grown = files_of(&db);
    EXPECT(boddurci_store(&db, BYTES("7"), BYTES("0ther"), 1) == BODDURCI_DONE && plan_from(&db, grown, page) > 0);
    free_files(grown);
    grown = files_of(&db);
    EXPECT(boddurci_store(&db, BYTES("7"), BYTES("1ther"), 1) == BODDURCI_DONE);
    EXPECT(plan_from(&db, grown, page) == PLAN_HEAD + CHANGE_HEAD + PART);
    free_files(grown);
    for (int i = 0; i < 3000; i++)
        EXPECT(boddurci_delete(&db, (const uint8_t *)key, (size_t)snprintf(key, sizeof key, "%d", i)) == BODDURCI_DONE);
    plan_from(&db, full, page);
    plan_from(&db, empty, page);
    free_files(empty);
    free_files(full);
    boddurci_close(&db);
}

/* Tests which pages count as changed, and plans with these pages and without. */
void test_marks(void)
{
    static uint8_t pages[2048], plan[8192];
    static const uint32_t some[] = {5, 0, 5};
    uint32_t numbers[4] = {9, 9, 9, 9};
    boddurci db = BODDURCI_CLOSED;
    size_t count, length;
    open_empty(&db, 0, 0);
    EXPECT(changed_in(&db) == 0);
    EXPECT(boddurci_delete(&db, BYTES("a")) == BODDURCI_MISSING && changed_in(&db) == 0);
    EXPECT(boddurci_store(&db, BYTES("a"), BYTES("b"), 1) == BODDURCI_DONE && boddurci_store(&db, BYTES("b"), BYTES("b"), 1) == BODDURCI_DONE);
    EXPECT(boddurci_changed(&db, numbers, 0, &count) == BODDURCI_SHORT_ROOM && count == 1 && numbers[0] == 9);
    EXPECT(boddurci_changed(&db, numbers, 4, &count) == BODDURCI_DONE && count == 1 && numbers[0] == 0 && numbers[1] == 9);
    length = 7;
    EXPECT(boddurci_plan(&db, BODDURCI_NO_BYTES, 0, numbers, 0, BODDURCI_NO_BYTES, plan, sizeof plan, &length) == BODDURCI_STALE && length == 7);
    EXPECT(boddurci_plan(&db, BODDURCI_NO_BYTES, 0, numbers, 1, pages, 1023, plan, sizeof plan, &length) == BODDURCI_STALE && length == 7);
    EXPECT(boddurci_plan(&db, BODDURCI_NO_BYTES, 0, some, 1, pages, 1024, plan, sizeof plan, &length) == BODDURCI_STALE && changed_in(&db) == 1);
    EXPECT(boddurci_plan(&db, BODDURCI_NO_BYTES, 0, some, 2, pages, 2048, plan, sizeof plan, &length) == BODDURCI_DONE && changed_in(&db) == 0);
    EXPECT(length == PLAN_HEAD + CHANGE_HEAD + 2 * 1024);
    EXPECT(boddurci_mark(&db, some, 3) == BODDURCI_DONE && changed_in(&db) == 2 && boddurci_mark(&db, some, 0) == BODDURCI_DONE);
    EXPECT(boddurci_changed(&db, numbers, 4, &count) == BODDURCI_DONE && numbers[0] == 5 && numbers[1] == 0);
    /* A page with garbage in its free bytes counts as changed from the opening on. */
    struct files files = files_of(&db);
    boddurci_close(&db);
    files.pag[500] = 1;
    EXPECT(boddurci_open(&db, files.dir, files.dir_length, files.pag, files.pag_length, 0, 0, pages, sizeof pages, &length) == BODDURCI_DONE);
    EXPECT(boddurci_changed(&db, numbers, 4, &count) == BODDURCI_DONE && count == 1 && numbers[0] == 0);
    free_files(files);
    boddurci_close(&db);
}
