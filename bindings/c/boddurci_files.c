/* Implements the calls of include/boddurci_files.h, except saves and shared bases. */
#define _GNU_SOURCE
#include "boddurci_files.h"
#include "boddurci_saves.h"
#include <fcntl.h>
#include <pthread.h>
#include <stdio.h>
#include <stdlib.h>
#include <unistd.h>

int boddurci_is_of_another(const boddurci_base *base)
{
    return base->process != boddurci_this_process();
}

/* ---- reading */

/* The contents of both files, as opening a base reads them: the bytes of .dir, and the pages of .pag. The bytes of a short .pag are read
 * first, and become pages after the locks are released. */
struct parts {
    struct boddurci_bytes directory;
    struct boddurci_bytes unparsed;
    boddurci_reading pages;
    uint32_t is_wide;
    int has_data; /* .pag has data and is not just one hole */
};

static void let_parts_go(struct parts *parts)
{
    boddurci_let_go(&parts->directory);
    boddurci_let_go(&parts->unparsed);
    boddurci_end_reading(&parts->pages);
}

static uint32_t read_pieces(int file, struct parts *parts, boddurci_fault *fault)
{
    enum { SHORT = 1 << 20 };
    size_t length;
    uint32_t status = boddurci_length_of(file, BODDURCI_PAGES, &length, fault);
    if (status != BODDURCI_DONE)
        return status;
    parts->has_data = boddurci_has_data(file, length);
    int is_read = length <= SHORT ? boddurci_read_short(file, length, &parts->unparsed)
                                  : boddurci_read_pages(file, length, parts->is_wide, &parts->pages);
    return is_read == 0 ? status : boddurci_fail_by_system(fault, "a file cannot be read");
}

/* Reads both data files. A missing file has no bytes; if `must_exist` is 1, a missing .pag is an error. */
static uint32_t read_parts(struct boddurci_place *place, int must_exist, struct parts *parts, boddurci_fault *fault)
{
    int file;
    uint32_t status = boddurci_read_data(place, BODDURCI_DIRECTORY, &parts->directory, fault);
    if (status == BODDURCI_DONE)
        status = boddurci_open_to_read(place, BODDURCI_PAGES, must_exist, &file, fault);
    if (status != BODDURCI_DONE || file < 0)
        return status;
    status = read_pieces(file, parts, fault);
    close(file);
    return status;
}

/* Reads both data files for a read-only base. If the redo file has its mark, the result includes the saves in the redo file. The redo file
 * is not needed while a writer has the base open, since the writer has written its saves to the data files. */
static uint32_t read_over(struct boddurci_place *place, int must_exist, struct parts *parts, boddurci_fault *fault)
{
    struct boddurci_bytes files[2];
    int is_marked;
    if (boddurci_has_writer(place))
        return read_parts(place, must_exist, parts, fault);
    uint32_t status = boddurci_read_marked(place, &is_marked, files, fault);
    if (status == BODDURCI_DONE && !is_marked)
        return read_parts(place, must_exist, parts, fault);
    parts->has_data = 1;
    parts->unparsed = files[BODDURCI_PAGES];
    parts->directory = files[BODDURCI_DIRECTORY];
    return status;
}

/* Parses the bytes of .pag that were read. */
static uint32_t parse(struct parts *parts, boddurci_fault *fault)
{
    if (parts->unparsed.length == 0 || boddurci_move_pages(&parts->unparsed, parts->is_wide, &parts->pages) == 0)
        return BODDURCI_DONE;
    return boddurci_no_memory(fault);
}

/* ---- opening */

/* Records which data files exist, without reading them. */
static void see_files(struct boddurci_place *place)
{
    for (enum boddurci_file file = BODDURCI_PAGES; file <= BODDURCI_DIRECTORY; file++) {
        int opened = boddurci_open_data(place, file, O_RDONLY);
        if (opened >= 0)
            close(opened);
    }
}

/* Reads both data files. A writer recovers them first. */
static uint32_t read_files(boddurci_base *base, struct parts *parts, boddurci_fault *fault)
{
    struct boddurci_disk *disk = &base->logged.disk;
    int must_exist = (base->flags & BODDURCI_MUST_EXIST) != 0, is_ended;
    boddurci_no_fault(fault);
    boddurci_see_none(&base->place);
    if (base->flags & BODDURCI_READ_ONLY)
        return base->flags & BODDURCI_EMPTY ? BODDURCI_DONE : read_over(&base->place, must_exist, parts, fault);
    boddurci_hold_signal(disk);
    uint32_t status = boddurci_logged_recover(&base->logged, 0, &is_ended, fault);
    boddurci_give_signal(disk);
    if (base->flags & BODDURCI_EMPTY)
        see_files(&base->place);
    boddurci_note_opened(&base->notes, disk);
    if (status == BODDURCI_DONE && !(base->flags & BODDURCI_EMPTY)) {
        status = read_parts(&base->place, must_exist, parts, fault);
        base->is_noted = status == BODDURCI_DONE;
    }
    boddurci_note_system(&base->notes, &base->place);
    return status;
}

static const uint8_t *or_none(struct boddurci_bytes bytes)
{
    static const uint8_t none[1];
    return bytes.at != NULL ? bytes.at : none;
}

/* Checks whether the files of a base that is opened with wide pages look like small pages. Small pages can be valid wide pages by
 * chance. */
static uint32_t look_at_size(const boddurci_base *base, struct parts *parts, boddurci_fault *fault)
{
    uint32_t looks_small = 0, status = BODDURCI_DONE;
    int is_tested = parts->is_wide && parts->has_data && !(base->flags & BODDURCI_ANY_SIZE);
    /* The flags may name the wrong hash, so try both. */
    for (uint32_t is_unsigned = 0; is_tested && status == BODDURCI_DONE && !looks_small && is_unsigned < 2; is_unsigned++)
        status = boddurci_reading_looks_small(&parts->pages, or_none(parts->directory), parts->directory.length, is_unsigned, &looks_small);
    if (status == BODDURCI_DONE && looks_small)
        status = BODDURCI_OTHER_SIZE;
    return status == BODDURCI_DONE ? status : boddurci_fail(fault, status, 0, boddurci_files_text(status));
}

static uint32_t open_parts(boddurci_base *base, struct parts *parts, boddurci_fault *fault)
{
    uint8_t text[sizeof fault->text - 1];
    size_t length = 0;
    uint32_t status = boddurci_open_reading(&base->db, &parts->pages, or_none(parts->directory), parts->directory.length, parts->is_wide,
                                            (base->flags & BODDURCI_UNSIGNED_KEYS) != 0, text, sizeof text, &length);
    if (status == BODDURCI_DONE)
        return status;
    boddurci_fail(fault, status, 0, boddurci_text(status));
    if (status == BODDURCI_BAD_FILES && length != 0 && length <= sizeof text)
        snprintf(fault->text, sizeof fault->text, "bad files: %.*s", (int)length, (const char *)text);
    return status;
}

/* Takes the lock for a reader that found no lock file and has read the files, and reads again: the first writer may have made the lock file
 * meanwhile. */
static uint32_t read_again(boddurci_base *base, struct parts *parts, uint32_t status, int64_t milliseconds, boddurci_fault *fault)
{
    boddurci_fault second;
    uint32_t locked = boddurci_take_shared(&base->place, milliseconds, &second);
    if (locked == BODDURCI_DONE && base->place.opened[BODDURCI_LOCK] < 0)
        return status;
    let_parts_go(parts);
    if (locked == BODDURCI_DONE)
        return read_files(base, parts, fault);
    *fault = second;
    return locked;
}

void boddurci_mark_and_give(boddurci_base *base)
{
    boddurci_fault unsaid;
    if (!boddurci_logged_is_marked(&base->logged)) {
        boddurci_hold_signal(&base->logged.disk);
        (void)!boddurci_logged_mark(&base->logged, &unsaid);
        boddurci_give_signal(&base->logged.disk);
    }
    if (boddurci_logged_is_marked(&base->logged))
        boddurci_give_files(&base->place);
    else
        boddurci_keep_files(&base->place);
}

/* Where a base is: its name, or the place of an open base. The other one is NULL. */
struct where {
    const char *name;
    const struct boddurci_place *place;
};

static uint32_t enter(struct boddurci_place *place, struct where where, int reads, int64_t milliseconds, boddurci_fault *fault)
{
    if (where.place != NULL)
        return boddurci_enter_like(place, where.place, reads, milliseconds, fault);
    return boddurci_enter(place, where.name != NULL ? where.name : "", reads, milliseconds, fault);
}

static uint32_t read_base(boddurci_base *base, struct where where, int64_t milliseconds, boddurci_fault *fault)
{
    struct parts parts = {{NULL, 0, 0}, {NULL, 0, 0}, BODDURCI_UNREAD, (base->flags & BODDURCI_WIDE) != 0, 0};
    int reads = (base->flags & BODDURCI_READ_ONLY) != 0;
    uint32_t status = enter(&base->place, where, reads, milliseconds, fault);
    int may_read = status == BODDURCI_DONE;
    if (may_read)
        status = read_files(base, &parts, fault);
    if (may_read && base->place.opened[BODDURCI_LOCK] < 0)
        status = read_again(base, &parts, status, milliseconds, fault);
    if (status != BODDURCI_DONE || reads) {
        boddurci_logged_end(&base->logged);
        boddurci_give_locks(&base->place, 1);
    }
    if (status == BODDURCI_DONE)
        status = parse(&parts, fault);
    if (status == BODDURCI_DONE)
        status = look_at_size(base, &parts, fault);
    if (status == BODDURCI_DONE)
        status = open_parts(base, &parts, fault);
    if (status == BODDURCI_DONE && !reads)
        boddurci_mark_and_give(base);
    let_parts_go(&parts);
    return status;
}

/* ---- bases */

static boddurci_base *new_base(uint32_t flags)
{
    boddurci_base *base = calloc(1, sizeof *base);
    if (base == NULL)
        return NULL;
    base->flags = flags;
    base->process = boddurci_note_process();
    boddurci_no_place(&base->place);
    boddurci_logged_of(&base->logged, &base->place, &base->notes);
    base->logged.group = &base->saves;
    if (pthread_mutex_init(&base->mutex, NULL) == 0) {
        if (boddurci_group_init(&base->saves) == 0)
            return base;
        pthread_mutex_destroy(&base->mutex);
    }
    free(base);
    return NULL;
}

static boddurci_base *open_within(struct where where, uint32_t flags, int64_t milliseconds, boddurci_fault *fault)
{
    boddurci_fault unsaid;
    int could_be_cancelled = boddurci_hold_cancel();
    boddurci_base *base = new_base(flags);
    fault = fault != NULL ? fault : &unsaid;
    boddurci_no_fault(fault);
    if (base == NULL)
        boddurci_no_memory(fault);
    else if (read_base(base, where, flags & BODDURCI_NO_WAIT ? 0 : milliseconds, fault) != BODDURCI_DONE) {
        boddurci_close_files(base);
        base = NULL;
    }
    boddurci_give_cancel(could_be_cancelled);
    return base;
}

boddurci_base *boddurci_open_files_within(const char *name, uint32_t flags, int64_t milliseconds, boddurci_fault *fault)
{
    struct where where = {name, NULL};
    return open_within(where, flags, milliseconds, fault);
}

boddurci_base *boddurci_open_like(const struct boddurci_place *place, uint32_t flags, int64_t milliseconds, boddurci_fault *fault)
{
    struct where where = {NULL, place};
    return open_within(where, flags, milliseconds, fault);
}

boddurci_base *boddurci_open_files(const char *name, uint32_t flags, boddurci_fault *fault)
{
    boddurci_fault unsaid;
    boddurci_base *base;
    fault = fault != NULL ? fault : &unsaid;
    do
        base = boddurci_open_files_within(name, flags, -1, fault);
    while (base == NULL && fault->status == BODDURCI_INTERRUPTED);
    return base;
}

/* Closes the log, under the exclusive lock, and then the files. */
static void end_log(boddurci_base *base)
{
    if (base->logged.is_open && boddurci_take_files(&base->place) != 0)
        base->logged.is_open = 0;
    boddurci_logged_end(&base->logged);
}

/* In a forked child, does not free the memory of the database if another thread of the parent held the mutex. */
void boddurci_close_files(boddurci_base *base)
{
    if (base == NULL)
        return;
    int is_own = !boddurci_is_of_another(base), could_be_cancelled = boddurci_hold_cancel();
    if (is_own || pthread_mutex_trylock(&base->mutex) == 0)
        boddurci_close(&base->db);
    if (is_own)
        end_log(base);
    else
        boddurci_disk_close(&base->logged.disk);
    boddurci_give_locks(&base->place, is_own);
    boddurci_place_close(&base->place);
    if (is_own) {
        pthread_mutex_destroy(&base->mutex);
        boddurci_group_destroy(&base->saves);
    }
    free(base);
    boddurci_give_cancel(could_be_cancelled);
}

boddurci *boddurci_take_own(boddurci_base *base)
{
    boddurci_lock_soon(&base->mutex);
    return &base->db;
}

void boddurci_give_own(boddurci_base *base)
{
    pthread_mutex_unlock(&base->mutex);
}

boddurci *boddurci_take(boddurci_base *base)
{
    return base == NULL || boddurci_is_of_another(base) ? NULL : boddurci_take_own(base);
}

void boddurci_give(boddurci_base *base)
{
    if (base != NULL && !boddurci_is_of_another(base))
        boddurci_give_own(base);
}

