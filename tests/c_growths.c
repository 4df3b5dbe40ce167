/* Tests calls while each allocation fails in turn: the call succeeds, or it reports the fault and changes nothing. Part of tests/c_library.c. */
#include "c_library.h"

enum { STEPS = 80 };

/* The number of calls that reported a failed allocation. */
static unsigned long told_growths;

/* Expects a fault with its text, or NO_MEMORY. */
static uint32_t with_text(uint32_t status, const size_t *length)
{
    EXPECT(status == BODDURCI_NO_MEMORY || *length != 0);
    return status;
}

/* Plans a save of all changes into empty files. */
static uint32_t plan_changed(boddurci *db, uint8_t *plan, size_t room)
{
    static const uint8_t zeros[65536];
    static uint32_t numbers[64];
    size_t count, length;
    EXPECT(boddurci_changed(db, numbers, 64, &count) == BODDURCI_DONE);
    return boddurci_plan(db, BODDURCI_NO_BYTES, 0, numbers, count, zeros, count * 1024, plan, room, &length);
}

/* Makes one step: a call on a handle and a ticket. */
static uint32_t do_step(boddurci *db, boddurci_ticket *ticket, int step)
{
    uint8_t text[100], value[200];
    size_t length, unit, line, image_length;
    uint32_t number;
    uint64_t end, word;
    char key[16];
    static uint8_t image[BODDURCI_IMAGE_MOST], dir[65536], pag[262144];
    static const uint8_t page[1024] = {1, 0, 0xff};
    static const uint32_t many = 20000;
    boddurci other = BODDURCI_CLOSED;
    memset(value, step, sizeof value);
    size_t key_length = (size_t)snprintf(key, sizeof key, "key %d", step);
    switch (step) {
    case 0: return boddurci_open(db, BODDURCI_NO_BYTES, BODDURCI_NO_BYTES, 0, 0, text, sizeof text, &length);
    case 1: return boddurci_assemble(BYTES(COUNTER_TEXT), image, sizeof image, &image_length, &line, text, sizeof text, &length);
    case 2: return boddurci_submit(db, counter, counter_length, &number, &unit, text, sizeof text, &length);
    case 3: return with_text(boddurci_submit(db, counter, 56, &number, &unit, text, sizeof text, &length), &length);
    case 4: return boddurci_run(db, 0, BYTES("hits"), BYTES("argument"), 1, 8, 0, &end, &word);
    case 5: return boddurci_run(db, 0, BYTES("hits"), BYTES("argument"), 1, 8, 0, &end, &word);
    case 6: return boddurci_delete(db, BYTES("hits"));
    case 7: return boddurci_delete(db, BYTES("none"));
    case 8: return with_text(boddurci_assemble(BYTES("hop"), image, sizeof image, &image_length, &line, text, sizeof text, &length), &length);
    case 9: return with_text(boddurci_open(&other, BODDURCI_NO_BYTES, page, sizeof page, 0, 0, text, sizeof text, &length), &length);
    case 50: return ask(db, ticket, "hits", 1);
    case 51: return boddurci_work(ticket);
    case 52: return boddurci_finish(db, ticket, &end, &word);
    case 53: return ask(db, ticket, "hits", 1);
    case 54: return boddurci_work(ticket);
    case 55: return boddurci_finish(db, ticket, &end, &word);
    case 56: return boddurci_files(db, dir, sizeof dir, &length, pag, sizeof pag, &unit);
    case 57: return plan_changed(db, pag, sizeof pag);
    case 58: return boddurci_run(db, 0, (const uint8_t *)key, key_length, BODDURCI_NO_BYTES, 1, 900, 0, &end, &word);
    case 59: return boddurci_run(db, 0, (const uint8_t *)key, key_length, BODDURCI_NO_BYTES, 1, 900, 0, &end, &word);
    case 60: return boddurci_mark(db, &many, 1);
    default: return boddurci_store(db, (const uint8_t *)key, key_length, value, sizeof value, 1);
    }
}

/* Makes one step. The nth allocation, counted from the first step on, may fail during this step. If so, the step succeeds nevertheless, or
 * it changes nothing and is repeated. Returns whether the allocation was reached. */
static int refuse_in_step(boddurci *db, boddurci_ticket *ticket, int step, unsigned long nth, uint32_t expected)
{
    struct files before = {NULL, NULL, 0, 0}, after;
    if (step > 0)
        before = files_of(db);
    refused = nth;
    uint32_t status = do_step(db, ticket, step);
    int was_met = growths >= nth;
    refused = 0;
    EXPECT(status == expected || (was_met && status == BODDURCI_NO_MEMORY));
    if (status == BODDURCI_NO_MEMORY) {
        told_growths++;
        EXPECT(boddurci_is_open(db) == (step > 0));
        if (step > 0) {
            after = files_of(db);
            EXPECT(are_same(before, after));
            free_files(after);
        }
        EXPECT(do_step(db, ticket, step) == expected);
    }
    free_files(before);
    return was_met;
}

/* Makes all steps. The nth allocation fails, or no allocation if n is 0. Returns whether the nth allocation was reached. */
static int refuse_in_steps(unsigned long nth, uint32_t *expected, struct files *made)
{
    boddurci db = BODDURCI_CLOSED;
    boddurci_ticket ticket = BODDURCI_FREE;
    int was_met = 0;
    growths = 0;
    for (int step = 0; step < STEPS; step++)
        if (nth == 0)
            expected[step] = do_step(&db, &ticket, step);
        else if (!was_met)
            was_met = refuse_in_step(&db, &ticket, step, nth, expected[step]);
        else
            EXPECT(do_step(&db, &ticket, step) == expected[step]);
    *made = files_of(&db);
    boddurci_close(&db);
    return was_met;
}

/* Opens these files while the nth allocation fails. Returns whether it was reached. */
static int refuse_in_opening(unsigned long nth, struct files files)
{
    boddurci db = BODDURCI_CLOSED;
    uint8_t text[100];
    size_t length;
    growths = 0;
    refused = nth;
    uint32_t status = boddurci_open(&db, files.dir, files.dir_length, files.pag, files.pag_length, 0, 0, text, sizeof text, &length);
    int was_met = growths >= nth;
    refused = 0;
    EXPECT(status == BODDURCI_DONE || (status == BODDURCI_NO_MEMORY && !boddurci_is_open(&db) && was_met));
    boddurci_close(&db);
    return was_met;
}

/* Opens the files in pieces, and submits programs by name, while the nth allocation fails. Returns whether it was reached. */
static int refuse_in_others(unsigned long nth, struct files files)
{
    int is_met = 0;
    for (int others = 0; others < 2; others++) {
        growths = 0;
        refused = nth;
        int ran_out = others == 0 ? reads_in_memory(files) : stocks_in_memory(), was_met = growths >= nth;
        refused = 0;
        EXPECT(was_met || !ran_out);
        is_met = is_met || was_met;
    }
    return is_met;
}

void test_growths(void)
{
    uint32_t expected[STEPS];
    struct files whole, made;
    unsigned long nth = 0;
    int in_steps = 1, in_opening = 1, in_others = 1;
    refuse_in_steps(0, expected, &whole);
    for (int step = 0; step < STEPS; step++)
        EXPECT(expected[step] != BODDURCI_NO_MEMORY);
    while (in_steps || in_opening || in_others) {
        nth++;
        in_steps = refuse_in_steps(nth, expected, &made);
        EXPECT(are_same(made, whole));
        in_opening = refuse_in_opening(nth, made);
        in_others = refuse_in_others(nth, made);
        free_files(made);
    }
    free_files(whole);
    EXPECT(told_growths != 0);
    printf("%lu growths refused in turn, %lu of them told\n", nth - 1, told_growths);
}
