/* Saves a base: reads the pages that may have changed, plans, and checks for changes made by other programs. include/boddurci_files.h
 * states the guarantees. boddurci_log.c executes a plan. */
#define _GNU_SOURCE
#include "boddurci_saves.h"
#include <errno.h>
#include <stdio.h>
#include <stdlib.h>
#include <string.h>
#include <unistd.h>

static const uint8_t *or_none(struct boddurci_bytes bytes)
{
    static const uint8_t none[1];
    return bytes.at != NULL ? bytes.at : none;
}

/* ---- reading for a save */

/* Page numbers in ascending order. */
struct numbers {
    uint32_t *at; /* NULL if the list is empty */
    size_t count;
};

/* The contents of the files that a plan needs: all of .dir, and the length and the listed pages of .pag. */
struct reading {
    struct boddurci_bytes directory;
    size_t length;
    size_t directory_length; /* the length of .dir when the save read the state of the files */
    struct numbers listed;
    struct numbers own; /* the pages that may have changed when the plan was made; set only if pages are compared */
    uint8_t *pages;
    size_t size; /* of a page */
};

static void free_numbers(struct numbers *numbers)
{
    free(numbers->at);
    numbers->at = NULL;
    numbers->count = 0;
}

static void end_reading(struct reading *reading)
{
    boddurci_let_go(&reading->directory);
    free_numbers(&reading->listed);
    free_numbers(&reading->own);
    free(reading->pages);
    reading->pages = NULL;
}

/* Clears a reading without freeing its memory, which a copy owns now. Keeps the lengths of the files and the page size. */
static void forget_reading(struct reading *reading)
{
    struct reading none = {.length = reading->length, .directory_length = reading->directory_length, .size = reading->size};
    *reading = none;
}

static int by_number(const void *one, const void *other)
{
    uint32_t a = *(const uint32_t *)one, b = *(const uint32_t *)other;
    return (a > b) - (a < b);
}

/* Lists the pages that may have changed. */
static uint32_t list_changed(boddurci *db, struct numbers *numbers)
{
    uint32_t none, status = boddurci_changed(db, &none, 0, &numbers->count);
    if (status != BODDURCI_SHORT_ROOM)
        return status;
    numbers->at = malloc(numbers->count * sizeof *numbers->at);
    if (numbers->at == NULL)
        return BODDURCI_NO_MEMORY;
    status = boddurci_changed(db, numbers->at, numbers->count, &numbers->count);
    if (status == BODDURCI_DONE)
        qsort(numbers->at, numbers->count, sizeof *numbers->at, by_number);
    return status;
}

/* Lists all pages up to the end of the file, the end of the database, and the last page that may have changed. */
static uint32_t list_all(boddurci *db, struct reading *reading)
{
    boddurci_cursor cursor;
    struct numbers *listed = &reading->listed;
    uint32_t status = list_changed(db, listed);
    if (status == BODDURCI_DONE)
        status = boddurci_first(db, &cursor);
    if (status != BODDURCI_DONE)
        return status;
    size_t end = (reading->length + reading->size - 1) / reading->size;
    if (cursor.end > end)
        end = cursor.end;
    if (listed->count != 0 && listed->at[listed->count - 1] >= end)
        end = (size_t)listed->at[listed->count - 1] + 1;
    uint32_t *numbers = realloc(listed->at, (end + 1) * sizeof *numbers);
    if (numbers == NULL)
        return BODDURCI_NO_MEMORY;
    for (size_t i = 0; i < end; i++)
        numbers[i] = (uint32_t)i;
    listed->at = numbers;
    listed->count = end;
    return status;
}

/* Returns the bytes of a page if it was read before, and NULL otherwise. */
static const uint8_t *page_in(const struct reading *before, uint32_t number)
{
    const uint32_t *at = before->listed.at;
    if (before->pages == NULL || at == NULL)
        return NULL;
    const uint32_t *found = bsearch(&number, at, before->listed.count, sizeof number, by_number);
    return found != NULL ? before->pages + (size_t)(found - at) * before->size : NULL;
}

/* Returns how many listed pages, from `first` on, one system call can read: they are adjacent in the file and were not read before. */
static size_t side_by_side(const struct reading *reading, const struct reading *before, size_t first)
{
    size_t count = 1;
    const uint32_t *numbers = reading->listed.at;
    while (first + count < reading->listed.count && numbers[first + count] == numbers[first] + count &&
           page_in(before, numbers[first + count]) == NULL)
        count++;
    return count;
}

/* Reads the listed pages, and copies those that were read before. */
static uint32_t read_pages(int file, struct reading *reading, const struct reading *before, boddurci_fault *fault)
{
    for (size_t i = 0, count; i < reading->listed.count; i += count) {
        const uint8_t *had = page_in(before, reading->listed.at[i]);
        count = had != NULL ? 1 : side_by_side(reading, before, i);
        if (had != NULL) {
            memcpy(reading->pages + i * reading->size, had, reading->size);
            continue;
        }
        if (boddurci_read_at(file, (uint64_t)reading->listed.at[i] * reading->size, reading->pages + i * reading->size, count * reading->size) != 0)
            return boddurci_fail_by_system(fault, "a file cannot be read");
    }
    return BODDURCI_DONE;
}

/* Reads all of .dir. Reads a short .dir into memory from malloc, since a mapping would take longer. */
static uint32_t read_directory(int file, struct reading *reading, boddurci_fault *fault)
{
    enum { SHORT = 65536 };
    struct boddurci_bytes *directory = &reading->directory;
    size_t length = reading->directory_length;
    if (length > SHORT)
        return boddurci_read_all(file, BODDURCI_DIRECTORY, directory, fault);
    directory->at = calloc(length + 1, 1);
    if (directory->at == NULL)
        return boddurci_no_memory(fault);
    directory->length = length;
    return boddurci_read_at(file, 0, directory->at, length) == 0 ? BODDURCI_DONE : boddurci_fail_by_system(fault, "a file cannot be read");
}

/* Reads the directory or the listed pages, from the open file if there is one. A missing file has no bytes. */
static uint32_t read_part(boddurci_base *base, enum boddurci_file which, struct reading *reading, const struct reading *before,
                          boddurci_fault *fault)
{
    int held = base->logged.disk.files[which], file = held;
    uint32_t status = held >= 0 ? BODDURCI_DONE : boddurci_open_to_read(&base->place, which, 0, &file, fault);
    if (status != BODDURCI_DONE || file < 0)
        return status;
    if (which == BODDURCI_PAGES)
        status = read_pages(file, reading, before, fault);
    else
        status = read_directory(file, reading, fault);
    if (held < 0)
        close(file);
    return status;
}

/* Takes the directory from an earlier reading, or reads it, and reads the listed pages. */
static uint32_t read_listed(boddurci_base *base, struct reading *reading, struct reading *before, boddurci_fault *fault)
{
    static const struct boddurci_bytes none;
    reading->directory = before->directory;
    before->directory = none;
    uint32_t status = reading->directory.at == NULL ? read_part(base, BODDURCI_DIRECTORY, reading, before, fault) : BODDURCI_DONE;
    reading->pages = calloc(reading->listed.count + 1, reading->size);
    if (reading->pages == NULL)
        return boddurci_no_memory(fault);
    return status == BODDURCI_DONE ? read_part(base, BODDURCI_PAGES, reading, before, fault) : status;
}

/* ---- planning */

/* The state of one save. */
struct saving {
    int insists;                   /* the save may overwrite the changes of another program */
    int are_names_same;            /* all names lead to the files of the last save */
    int compares;                  /* the pages that the base has not changed must be the same in the file */
    enum boddurci_change change;   /* how the files differ from the notes of the last save */
    enum boddurci_file which;      /* which file differs */
    struct boddurci_note found[2]; /* the present state of both files */
    struct reading reading;
    struct boddurci_bytes plan;
};

/* Returns the numbers of a list as an argument, which must not be NULL even if the list is empty. */
static const uint32_t *numbers_of(const struct numbers *numbers)
{
    static const uint32_t none;
    return numbers->at != NULL ? numbers->at : &none;
}

/* Returns the length of a plan that changes every block of the pages, but at most a limit. A buffer of this length is usually enough at the
 * first try. */
static size_t room_of(const struct reading *reading)
{
    enum { BLOCK = 1024, CHANGE = 9 + 2 * BLOCK, MOST = 8192, LEAST = 65536 };
    size_t blocks = reading->listed.count * (reading->size / BLOCK);
    return LEAST + (blocks < MOST ? blocks : MOST) * CHANGE;
}

/* Makes the plan of a save. Leaves the first BODDURCI_PLAN_AT bytes of its memory unused, for the head of the log record. The plan is empty
 * if the files already equal the database. Free its memory even if the call fails. */
static uint32_t plan_of(boddurci *db, const struct reading *reading, struct boddurci_bytes *plan)
{
    const uint8_t *directory = or_none(reading->directory);
    const uint32_t *numbers = numbers_of(&reading->listed);
    size_t room, length = room_of(reading), count = reading->listed.count, pages = count * reading->size;
    uint32_t status = BODDURCI_SHORT_ROOM;
    while (status == BODDURCI_SHORT_ROOM) {
        uint8_t *grown = realloc(plan->at, BODDURCI_PLAN_AT + length);
        if (grown == NULL)
            return BODDURCI_NO_MEMORY;
        plan->at = grown;
        room = length;
        status = boddurci_plan(db, directory, reading->directory.length, reading->length, numbers, count, reading->pages, pages,
                               grown + BODDURCI_PLAN_AT, room, &length);
    }
    if (status == BODDURCI_DONE)
        plan->length = length == 0 ? 0 : BODDURCI_PLAN_AT + length;
    return status;
}

/* Copies the listed pages that were read before, and reads the others from the system's page cache. Fails if a page is not in the cache. */
static int read_cached(int file, struct reading *reading, const struct reading *before)
{
    for (size_t i = 0; i < reading->listed.count; i++) {
        uint32_t number = reading->listed.at[i];
        uint8_t *room = reading->pages + i * reading->size;
        const uint8_t *had = page_in(before, number);
        if (had != NULL)
            memcpy(room, had, reading->size);
        else if (boddurci_read_cached(file, (uint64_t)number * reading->size, room, reading->size) != 0)
            return -1;
    }
    return 0;
}

/* Lists the pages again, and reads the pages that other threads have changed meanwhile. The caller holds the mutex and must not wait for
 * the disk, so the call fails if one of these pages is not in the page cache. On failure nothing changes. */
static int read_more(boddurci_base *base, struct saving *saving)
{
    struct reading *before = &saving->reading, more = {.length = before->length, .size = before->size};
    int file = base->logged.disk.files[BODDURCI_PAGES], is_read = -1;
    if (!base->is_noted || file < 0 || list_changed(&base->db, &more.listed) != BODDURCI_DONE)
        return -1;
    more.pages = calloc(more.listed.count + 1, more.size);
    if (more.pages != NULL)
        is_read = read_cached(file, &more, before);
    struct numbers listed = is_read == 0 ? before->listed : more.listed;
    uint8_t *pages = is_read == 0 ? before->pages : more.pages;
    if (is_read == 0) {
        before->listed = more.listed;
        before->pages = more.pages;
    }
    free_numbers(&listed);
    free(pages);
    return is_read;
}

/* Lists the pages to read, reads them, and plans. It holds the mutex while it lists and plans. If `holds` is 1, it holds the mutex also
 * while it reads. */
static uint32_t try_plan(boddurci_base *base, struct saving *saving, struct reading *before, int holds, boddurci_fault *fault)
{
    boddurci *db = boddurci_take_own(base);
    struct reading *reading = &saving->reading;
    uint32_t status = base->is_noted ? list_changed(db, &reading->listed) : list_all(db, reading);
    if (!holds)
        boddurci_give_own(base);
    int is_listed = status == BODDURCI_DONE, plans = !base->is_noted || reading->listed.count != 0 || !base->is_planned;
    if (is_listed && plans)
        status = read_listed(base, reading, before, fault);
    int is_read = is_listed && status == BODDURCI_DONE;
    if (!holds)
        boddurci_take_own(base);
    if (is_read && saving->compares)
        status = list_changed(db, &reading->own);
    if (is_read && plans && status == BODDURCI_DONE)
        status = plan_of(db, reading, &saving->plan);
    if (is_read && status == BODDURCI_STALE && read_more(base, saving) == 0)
        status = plan_of(db, reading, &saving->plan);
    boddurci_give_own(base);
    if (status == BODDURCI_DONE || status == BODDURCI_STALE || (is_listed && !is_read))
        return status;
    return boddurci_fail(fault, status, 0, boddurci_text(status));
}

enum { TRIES = 3 };

/* Makes a plan. Starts again if other threads have changed further pages meanwhile. After TRIES attempts holds the mutex while it reads. */
static uint32_t plan_now(boddurci_base *base, struct saving *saving, boddurci_fault *fault)
{
    uint32_t status = BODDURCI_STALE;
    for (int tries = 0; status == BODDURCI_STALE; tries++) {
        struct reading before = saving->reading;
        forget_reading(&saving->reading);
        status = try_plan(base, saving, &before, tries >= TRIES, fault);
        end_reading(&before);
    }
    return status;
}

/* Marks the pages of a plan as changed again, since the plan was not executed. If that fails, the next save reads all pages. */
static void mark_again(boddurci_base *base, const struct saving *saving)
{
    const struct numbers *numbers = saving->compares ? &saving->reading.own : &saving->reading.listed;
    if (boddurci_mark(boddurci_take_own(base), numbers_of(numbers), numbers->count) != BODDURCI_DONE)
        base->is_noted = 0;
    boddurci_give_own(base);
}

/* ---- files that another program has changed */

/* Sets `base->change` to a text that says how another program has changed a file. */
static void note_change(boddurci_base *base, const struct saving *saving)
{
    static const char *const names[2] = {"BASE.pag", "BASE.dir"};
    const struct boddurci_note *noted = &base->notes.files[saving->which], *is = &saving->found[saving->which];
    unsigned long long length = (unsigned long long)is->length, before = (unsigned long long)noted->length;
    if (saving->change != BODDURCI_OTHERS)
        snprintf(base->change, sizeof base->change, "%s was written", names[saving->which]);
    else if (!noted->is_there)
        snprintf(base->change, sizeof base->change, "%s was made, with %llu bytes", names[saving->which], length);
    else
        snprintf(base->change, sizeof base->change, "%s has %llu bytes, and had %llu", names[saving->which], length, before);
}

/* Sets the fault of a save that would overwrite the changes of another program. Closes the log if possible: its records do not belong to
 * these files, and the next opening must not apply these records. */
static uint32_t is_changed(boddurci_base *base, boddurci_fault *fault)
{
    boddurci_fault second;
    struct boddurci_logged *logged = &base->logged;
    if (logged->is_open && boddurci_is_named(&base->place, BODDURCI_REDO, logged->disk.files[BODDURCI_REDO]))
        (void)!boddurci_logged_renew(logged, &second);
    boddurci_fail(fault, BODDURCI_CHANGED, 0, "");
    snprintf(fault->text, sizeof fault->text, "another program has changed the files: %s. Nothing was written: insist to overwrite them",
             base->change);
    return fault->status;
}

static int has_own_changes(boddurci_base *base)
{
    uint32_t none;
    size_t count = 0;
    uint32_t status = boddurci_changed(boddurci_take_own(base), &none, 0, &count);
    boddurci_give_own(base);
    return status != BODDURCI_DONE || count != 0;
}

/* Checks before any write, by lengths and times, whether another program has changed the files. If only times differ, the save will compare
 * all pages. A comparison cannot tell whether the other program has written a page that the base has changed too. If that is possible,
 * refuses the save. */
static uint32_t must_be_ours(boddurci_base *base, struct saving *saving, boddurci_fault *fault)
{
    int is_known = base->is_noted || base->doubt != BODDURCI_SAME, is_other = saving->change == BODDURCI_OTHERS;
    if (is_known && !is_other && saving->change > base->doubt)
        base->doubt = saving->change;
    if (saving->change == BODDURCI_WRITTEN || base->doubt == BODDURCI_WRITTEN)
        is_other = is_other || !is_known || has_own_changes(base);
    if (is_other && base->change[0] == 0)
        note_change(base, saving);
    saving->compares = base->doubt != BODDURCI_SAME && !saving->insists;
    return base->change[0] != 0 && !saving->insists ? is_changed(base, fault) : BODDURCI_DONE;
}

/* Searches a plan for a change that another program has caused: any change of a page that the base has not changed, or any change at all if
 * the base has changed no page. */
static void compare(boddurci_base *base, const struct saving *saving)
{
    struct boddurci_plan_change change;
    const struct numbers *own = &saving->reading.own;
    if (saving->plan.length == 0)
        return;
    if (base->doubt == BODDURCI_WRITTEN && own->count != 0)
        note_change(base, saving);
    const uint8_t *at = saving->plan.at + BODDURCI_PLAN_AT + BODDURCI_CHANGES_AT, *end = saving->plan.at + saving->plan.length;
    while (base->change[0] == 0 && boddurci_next_change(&at, end, &change)) {
        uint32_t page = (uint32_t)(change.at / saving->reading.size);
        int is_page = change.file == BODDURCI_PAGES;
        if (!is_page && own->count == 0)
            snprintf(base->change, sizeof base->change, "BASE.dir has other bytes");
        else if (is_page && (own->count == 0 || bsearch(&page, own->at, own->count, sizeof page, by_number) == NULL))
            snprintf(base->change, sizeof base->change, "page %lu of BASE.pag has other bytes", (unsigned long)page);
    }
}

/* Checks, when the plan is made, whether another program has changed pages or is writing. If so, the plan is not executed. */
static uint32_t must_stay_ours(boddurci_base *base, const struct saving *saving, enum boddurci_change again, enum boddurci_file which,
                               boddurci_fault *fault)
{
    if (saving->insists)
        return BODDURCI_DONE;
    if (saving->compares)
        compare(base, saving);
    if (base->change[0] == 0 && again >= BODDURCI_WRITTEN)
        snprintf(base->change, sizeof base->change, "%s was written during the save", which == BODDURCI_PAGES ? "BASE.pag" : "BASE.dir");
    if (base->change[0] == 0) {
        base->doubt = BODDURCI_SAME;
        return BODDURCI_DONE;
    }
    mark_again(base, saving);
    return is_changed(base, fault);
}

/* ---- saving */

/* Executes the plan. If that fails, marks its pages as changed again. */
static uint32_t do_plan(boddurci_base *base, const struct saving *saving, boddurci_fault *fault)
{
    int is_left = 0;
    uint32_t status = BODDURCI_DONE;
    base->notes.is_overtaken = 0;
    if (saving->change != BODDURCI_SAME)
        boddurci_note_found(&base->notes, saving->found);
    if (saving->plan.length != 0) {
        base->may_have_written = 1;
        status = boddurci_logged_save(&base->logged, saving->plan, &is_left, fault);
    }
    if (status == BODDURCI_DONE)
        base->is_noted = is_left == 0;
    else
        mark_again(base, saving);
    return status;
}

/* Checks that the names of the data files still lead to the open files. */
static uint32_t are_named(const boddurci_base *base, const struct boddurci_note found[2], boddurci_fault *fault)
{
    for (enum boddurci_file file = BODDURCI_PAGES; file <= BODDURCI_DIRECTORY; file++) {
        const struct boddurci_seen *seen = &base->place.seen[file];
        const struct boddurci_note *note = &found[file];
        if (seen->is_there && (!note->is_there || note->device != seen->device || note->number != seen->number)) {
            errno = ESTALE;
            return boddurci_fail_by_system(fault, "");
        }
    }
    return BODDURCI_DONE;
}

/* Recovers the files after a failed save. If another program has written the files, closes the log, whose records do not belong to these
 * files, so that a new log begins. */
static uint32_t recover(boddurci_base *base, struct saving *saving, boddurci_fault *fault)
{
    int is_ended = 0;
    uint32_t status = boddurci_logged_recover(&base->logged, saving->are_names_same, &is_ended, fault);
    int is_same = saving->change == BODDURCI_SAME && base->doubt == BODDURCI_SAME && base->change[0] == 0;
    base->is_noted = base->is_noted && is_same && !is_ended;
    if (is_ended) {
        boddurci_note_written(&base->notes, &base->logged.disk);
        memcpy(saving->found, base->notes.files, sizeof saving->found);
        saving->change = BODDURCI_SAME;
    }
    if (status != BODDURCI_DONE || base->is_noted || is_ended)
        return status;
    base->may_have_written = 1;
    return boddurci_logged_renew(&base->logged, fault);
}

/* Compares the files with the notes, and prepares them for a save. */
static uint32_t prepare(boddurci_base *base, struct saving *saving, boddurci_fault *fault)
{
    struct timespec folder = {0, 0};
    saving->are_names_same = base->is_noted && boddurci_are_names_same(&base->notes, &base->place);
    if (!saving->are_names_same)
        folder = boddurci_time_of_folder(&base->place);
    uint32_t status = saving->are_names_same ? BODDURCI_DONE : boddurci_are_held(&base->place, fault);
    if (status != BODDURCI_DONE)
        return status;
    saving->change = boddurci_look_before(&base->notes, &base->logged.disk, base->is_noted, saving->are_names_same, saving->found,
                                          &saving->which);
    status = are_named(base, saving->found, fault);
    if (status == BODDURCI_DONE)
        status = must_be_ours(base, saving, fault);
    if (status == BODDURCI_DONE)
        status = recover(base, saving, fault);
    if (status == BODDURCI_DONE && saving->found[BODDURCI_PAGES].length > (off_t)boddurci_most_bytes(BODDURCI_PAGES))
        status = boddurci_fail(fault, BODDURCI_TOO_LONG, 0, boddurci_files_text(BODDURCI_TOO_LONG));
    if (status == BODDURCI_DONE && !saving->are_names_same)
        boddurci_note_names(&base->notes, &base->place, folder, saving->found);
    saving->reading.length = (size_t)saving->found[BODDURCI_PAGES].length;
    saving->reading.directory_length = (size_t)saving->found[BODDURCI_DIRECTORY].length;
    return status;
}

/* Notes the state of the files after a save. If another program has written during the save, the next save reports that change. */
static void settle(boddurci_base *base, const struct saving *saving, enum boddurci_change again)
{
    uint64_t lengths[2];
    boddurci_settle_locks(&base->place);
    base->is_planned = 1;
    base->is_noted = base->is_noted && again == BODDURCI_SAME;
    base->doubt = BODDURCI_SAME;
    base->change[0] = 0;
    if (base->notes.is_overtaken)
        snprintf(base->change, sizeof base->change, "BASE.pag or BASE.dir was written during the last save");
    if (saving->plan.length == 0)
        return;
    boddurci_lengths_of(saving->plan.at, 1, lengths);
    boddurci_note_saved(&base->notes, &base->logged.disk, lengths);
}

/* Returns whether a save may read pages before its calls have come: it will probably wait for calls, and nothing is unusual. */
static int may_read_early(const boddurci_base *base)
{
    int is_usual = base->is_noted && base->is_planned && base->doubt == BODDURCI_SAME && base->change[0] == 0;
    return is_usual && boddurci_logged_is_marked(&base->logged) && boddurci_group_awaits(&base->saves);
}

/* Reads .dir and the pages that have changed so far, with the noted lengths of the files, while further calls may come. The caller holds
 * BASE.lock. On failure nothing is read. */
static void read_early(boddurci_base *base, struct reading *early)
{
    boddurci_fault unsaid;
    struct reading none = {.size = early->size};
    early->length = (size_t)base->notes.files[BODDURCI_PAGES].length;
    early->directory_length = (size_t)base->notes.files[BODDURCI_DIRECTORY].length;
    uint32_t status = list_changed(boddurci_take_own(base), &early->listed);
    boddurci_give_own(base);
    if (status == BODDURCI_DONE && early->listed.count != 0)
        status = read_listed(base, early, &none, &unsaid);
    if (status != BODDURCI_DONE)
        end_reading(early);
}

/* Uses the bytes that were read early if the files are those of the last save: no other program has changed them, and they were not
 * recovered. Drops these bytes otherwise. */
static void use_early(const boddurci_base *base, struct saving *saving, struct reading *early)
{
    struct reading *reading = &saving->reading;
    int are_lengths_same = early->length == reading->length && early->directory_length == reading->directory_length;
    if (base->is_noted && saving->change == BODDURCI_SAME && !saving->compares && are_lengths_same)
        *reading = *early;
    else
        end_reading(early);
}

/* Saves after `prepare`. If no page has changed and the files match the notes, the save reads nothing; only the first save of a base
 * compares the lengths of the files and the directory. If the files equal the database, the save writes nothing. If the save insists and
 * another program wrote while the save read the files, the next save reads all pages. */
static uint32_t save_prepared(boddurci_base *base, struct saving *saving, boddurci_fault *fault)
{
    enum boddurci_file which;
    uint32_t status = plan_now(base, saving, fault);
    enum boddurci_change again = boddurci_look_again(&base->notes, &base->logged.disk, saving->found, &which);
    if (status == BODDURCI_DONE)
        status = must_stay_ours(base, saving, again, which, fault);
    if (status == BODDURCI_DONE)
        status = do_plan(base, saving, fault);
    if (status == BODDURCI_DONE)
        settle(base, saving, again);
    return status;
}

/* Releases BASE.lock after a save. If the log has failed, keeps the lock until a later save has recovered the files: until then the files
 * may lack a committed save or contain half of one. After CHANGED the log is closed, and readers get the data that the other program
 * wrote. */
static void give_files(boddurci_base *base, uint32_t status, int were_kept)
{
    const struct boddurci_logged *logged = &base->logged;
    int may_be_read = boddurci_logged_is_marked(logged) || base->change[0] != 0;
    if (status == BODDURCI_DONE && !logged->is_given_up)
        boddurci_mark_and_give(base);
    else if (may_be_read && !were_kept && !logged->is_given_up)
        boddurci_give_files(&base->place);
    else if (boddurci_take_files(&base->place) == 0)
        boddurci_keep_files(&base->place);
}

/* Takes BASE.lock for a save: shared, if the log is marked and the files are as noted. */
static int hold_files(boddurci_base *base)
{
    int may_share = base->is_noted && boddurci_logged_is_marked(&base->logged);
    return may_share ? boddurci_share_files(&base->place) : boddurci_take_files(&base->place);
}

static uint32_t save(boddurci_base *base, boddurci_fault *fault)
{
    struct saving saving;
    memset(&saving, 0, sizeof saving);
    struct reading early = {.size = base->flags & BODDURCI_WIDE ? 8192 : 1024};
    saving.reading.size = early.size;
    base->may_have_written = 0;
    int were_kept = base->place.keeps_files, holds = may_read_early(base) && hold_files(base) == 0;
    if (holds)
        read_early(base, &early);
    saving.insists = boddurci_group_take(&base->saves);
    if (!holds && hold_files(base) != 0)
        return boddurci_fail_by_system(fault, "BASE.lock cannot be locked");
    boddurci_hold_signal(&base->logged.disk);
    uint32_t status = prepare(base, &saving, fault);
    use_early(base, &saving, &early);
    if (status == BODDURCI_DONE)
        status = save_prepared(base, &saving, fault);
    if (status != BODDURCI_DONE && base->may_have_written)
        boddurci_note_written(&base->notes, &base->logged.disk);
    boddurci_give_signal(&base->logged.disk);
    give_files(base, status, were_kept);
    end_reading(&saving.reading);
    boddurci_let_go(&saving.plan);
    return status;
}

uint32_t boddurci_save_with(boddurci_base *base, uint32_t flags, boddurci_fault *fault)
{
    boddurci_fault unsaid;
    fault = fault != NULL ? fault : &unsaid;
    boddurci_no_fault(fault);
    if (base == NULL)
        return boddurci_fail(fault, BODDURCI_IS_CLOSED, 0, boddurci_text(BODDURCI_IS_CLOSED));
    if (boddurci_is_of_another(base))
        return boddurci_fail(fault, BODDURCI_FORKED, 0, boddurci_files_text(BODDURCI_FORKED));
    if (base->flags & BODDURCI_READ_ONLY)
        return boddurci_fail(fault, BODDURCI_NO_SAVE, 0, boddurci_files_text(BODDURCI_NO_SAVE));
    return boddurci_group_save(&base->saves, save, base, (flags & BODDURCI_INSIST) != 0, fault);
}

uint32_t boddurci_save(boddurci_base *base, boddurci_fault *fault)
{
    return boddurci_save_with(base, 0, fault);
}
