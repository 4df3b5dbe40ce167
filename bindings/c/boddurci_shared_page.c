/* Reads the page of a key of a shared base, and executes a command on it. The caller holds the locks, except for a call that works ahead
 * (boddurci_shared_ahead.c). */
#define _GNU_SOURCE
#include "boddurci_shared_base.h"
#include <fcntl.h>
#include <stdlib.h>
#include <string.h>
#include <time.h>

/* ---- reading */

/* Returns the descriptor of a data file, if possible the one that is open for writing. Opens the file if it was made after the last
 * open_data. */
static int file_of(boddurci_shared *shared, enum boddurci_file file)
{
    int written = shared->logged.disk.files[file];
    if (written >= 0)
        return written;
    if (shared->files[file] < 0)
        shared->files[file] = boddurci_open_data(&shared->place, file, O_RDONLY);
    return shared->files[file];
}

static uint32_t page_of(const boddurci_shared *shared, const struct boddurci_part *part, const uint8_t *key, size_t length)
{
    return boddurci_page_of(key, length, shared->directory, part->directory, (shared->flags & BODDURCI_UNSIGNED_KEYS) != 0);
}

/* Reads a page, with the changes of the tail. */
static int read_page(boddurci_shared *shared, const struct boddurci_part *part, uint32_t number)
{
    uint64_t at = (uint64_t)number * part->size;
    if (at >= part->length) {
        memset(shared->page, 0, part->size);
        return 0;
    }
    int file = file_of(shared, BODDURCI_PAGES);
    if (file < 0 || boddurci_read_at(file, at, shared->page, part->size) != 0)
        return -1;
    return boddurci_lay_tail(&shared->tail, BODDURCI_PAGES, (size_t)at, shared->page, part->size);
}

static size_t number_at(const uint8_t *bytes)
{
    return (size_t)bytes[0] | (size_t)bytes[1] << 8;
}

/* Returns whether shared->page has pairs and all its keys lead to it. Each key ends where the pair before it begins. */
static int has_own_pairs(const boddurci_shared *shared, const struct boddurci_part *part, uint32_t number)
{
    const uint8_t *page = shared->page;
    size_t count = number_at(page), end = part->size;
    if (count == 0 || count % 2 != 0 || 2 * (count + 1) > part->size)
        return 0;
    for (size_t i = 1; i < count; i += 2) {
        size_t key = number_at(page + 2 * i), value = number_at(page + 2 * i + 2);
        if (key > end || value > key || page_of(shared, part, page + key, end - key) != number)
            return 0;
        end = value;
    }
    return 1;
}

static int is_same_file(const struct boddurci_note *one, const struct boddurci_note *other)
{
    return one->is_there == other->is_there && one->device == other->device && one->number == other->number && one->length == other->length;
}

/* Sets the state of both data files, with the lengths that the tail gives them. */
static void state_with_tail(const boddurci_shared *shared, struct boddurci_note files[2])
{
    uint64_t lengths[2];
    memcpy(files, shared->notes.files, sizeof shared->notes.files);
    if (!boddurci_has_tail(&shared->tail))
        return;
    boddurci_lengths_of(shared->tail.bytes, 1, lengths);
    for (enum boddurci_file file = BODDURCI_PAGES; file <= BODDURCI_DIRECTORY; file++)
        files[file].length = (off_t)lengths[file];
}

/* Returns whether the last page of .pag belongs to the directory. If not, the directory may be lost, or belong to another database. Reads
 * that page again only if a file or its length has changed since the last check. */
static int is_last_page_right(boddurci_shared *shared, const struct boddurci_part *part)
{
    struct boddurci_note files[2];
    state_with_tail(shared, files);
    if (part->length == 0)
        return part->directory == 0;
    if (is_same_file(&files[0], &shared->last[0]) && is_same_file(&files[1], &shared->last[1]))
        return 1;
    uint32_t number = (uint32_t)(part->length / part->size - 1);
    if (read_page(shared, part, number) != 0 || !has_own_pairs(shared, part, number))
        return 0;
    memcpy(shared->last, files, sizeof shared->last);
    return 1;
}

/* Reads .dir, with the changes of the tail. Sets *is_whole to 1 if the lengths of the files show that one page is not enough. */
static int read_directory(boddurci_shared *shared, struct boddurci_part *part, int *is_whole)
{
    struct boddurci_note files[2], *pages = &files[BODDURCI_PAGES], *directory = &files[BODDURCI_DIRECTORY];
    state_with_tail(shared, files);
    part->size = shared->flags & BODDURCI_WIDE ? 8192 : 1024;
    part->length = (size_t)pages->length;
    part->directory = (size_t)directory->length;
    *is_whole = directory->length > BODDURCI_SHORT_DIRECTORY || pages->length > (off_t)boddurci_most_bytes(BODDURCI_PAGES) ||
                part->length % part->size != 0;
    if (*is_whole || part->directory == 0)
        return 0;
    int file = file_of(shared, BODDURCI_DIRECTORY);
    if (file < 0 || boddurci_read_at(file, 0, shared->directory, part->directory) != 0)
        return -1;
    return boddurci_lay_tail(&shared->tail, BODDURCI_DIRECTORY, 0, shared->directory, part->directory);
}

uint32_t boddurci_read_part(boddurci_shared *shared, const struct boddurci_command *command, struct boddurci_part *part, int *is_whole,
                            boddurci_fault *fault)
{
    if (read_directory(shared, part, is_whole) != 0)
        return boddurci_fail_by_system(fault, "a file cannot be read");
    *is_whole = *is_whole || !is_last_page_right(shared, part);
    if (*is_whole)
        return BODDURCI_DONE;
    part->number = page_of(shared, part, command->key, command->key_length);
    return read_page(shared, part, part->number) == 0 ? BODDURCI_DONE : boddurci_fail_by_system(fault, "a file cannot be read");
}

uint32_t boddurci_are_free(boddurci_shared *shared, const struct boddurci_part *part, const struct boddurci_planned *planned, int *are_free,
                           boddurci_fault *fault)
{
    *are_free = 1;
    for (size_t i = 0; *are_free && i < planned->count; i++) {
        if (planned->numbers[i] == part->number)
            continue;
        if (read_page(shared, part, planned->numbers[i]) != 0)
            return boddurci_fail_by_system(fault, "a file cannot be read");
        *are_free = boddurci_is_zero(shared->page, part->size);
    }
    return BODDURCI_DONE;
}

/* ---- executing */

/* Returns the time of the system's clock. A second has `per_second` units, at most 10^9, so no product exceeds 2^64 before the year 2554. */
static uint64_t clock_time(uint64_t per_second)
{
    struct timespec time;
    clock_gettime(CLOCK_REALTIME, &time);
    return (uint64_t)time.tv_sec * per_second + (uint64_t)time.tv_nsec * per_second / 1000000000;
}

uint32_t boddurci_answer(boddurci *db, struct boddurci_command *it)
{
    if (it->per_second != 0)
        it->now = clock_time(it->per_second);
    switch (it->kind) {
    case BODDURCI_FETCH: return boddurci_fetch(db, it->key, it->key_length, it->room, it->room_length, it->value_length);
    case BODDURCI_STORE: return boddurci_store(db, it->key, it->key_length, it->bytes, it->length, it->replace);
    case BODDURCI_DELETE: return boddurci_delete(db, it->key, it->key_length);
    default:
        return boddurci_run(db, it->number, it->key, it->key_length, it->bytes, it->length, it->has_blank, it->blank, it->now, &it->end,
                            &it->word);
    }
}

int boddurci_may_change(const struct boddurci_command *command, uint32_t status)
{
    if (status != BODDURCI_DONE || command->kind == BODDURCI_FETCH)
        return 0;
    return command->kind != BODDURCI_RUN || command->end == 1 || command->end == 2;
}

/* Plans the save of the page. STALE if the page is not enough, or if the plan may write more pages than `planned` can list. That is rare,
 * since a page is split at most once for each bit of the hash. */
static uint32_t plan_page(boddurci_shared *shared, const struct boddurci_part *part, struct boddurci_planned *planned)
{
    enum { MOST = sizeof planned->numbers / sizeof *planned->numbers };
    uint32_t status = BODDURCI_SHORT_ROOM;
    while (status == BODDURCI_SHORT_ROOM) {
        size_t room = shared->plan_room;
        if (planned->length > room) {
            uint8_t *grown = realloc(shared->plan, BODDURCI_PLAN_AT + planned->length);
            if (grown == NULL)
                return BODDURCI_NO_MEMORY;
            shared->plan = grown;
            room = shared->plan_room = planned->length;
        }
        status = boddurci_plan_page(&shared->db, shared->directory, part->directory, part->length, part->number, shared->page, part->size,
                                    planned->numbers, MOST, &planned->count, shared->plan + BODDURCI_PLAN_AT, room, &planned->length);
        if (status == BODDURCI_SHORT_ROOM && planned->count > MOST)
            return BODDURCI_STALE;
    }
    return status;
}

uint32_t boddurci_execute(boddurci_shared *shared, struct boddurci_command *command, const struct boddurci_part *part,
                          struct boddurci_planned *planned, int *is_whole)
{
    planned->length = planned->count = 0;
    uint32_t status = boddurci_open_page(&shared->db, command->key, command->key_length, shared->directory, part->directory, part->length,
                                         part->number, shared->page, part->size);
    *is_whole = status == BODDURCI_BAD_FILES;
    if (status != BODDURCI_DONE)
        return status;
    status = boddurci_answer(&shared->db, command);
    if (!boddurci_may_change(command, status))
        return status;
    status = plan_page(shared, part, planned);
    *is_whole = status == BODDURCI_STALE;
    return status;
}
