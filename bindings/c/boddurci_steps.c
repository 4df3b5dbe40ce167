/* Executes the steps that the library returns, on the files or on copies of them in memory, and allocates the disk space that they need. */
#define _GNU_SOURCE
#include "boddurci_saves.h"
#include <errno.h>
#include <string.h>

static enum boddurci_file file_of(const boddurci_step *step)
{
    return step->file == 0 ? BODDURCI_PAGES : step->file == 1 ? BODDURCI_DIRECTORY : BODDURCI_REDO;
}

static int is_data(const boddurci_step *step)
{
    return step->file < 2;
}

/* ---- on the files */

static int do_step(struct boddurci_disk *disk, const boddurci_step *step, const uint8_t *bytes)
{
    switch (step->kind) {
    case BODDURCI_WRITE: return boddurci_disk_write(disk, file_of(step), step->at, bytes + step->from, (size_t)step->length);
    case BODDURCI_ZEROS: return boddurci_disk_zero(disk, file_of(step), step->at, step->length);
    case BODDURCI_RESIZE: return boddurci_disk_resize(disk, file_of(step), step->length);
    default: return boddurci_disk_sync(disk, file_of(step));
    }
}

int boddurci_do_steps(struct boddurci_disk *disk, const boddurci_step *steps, size_t count, const uint8_t *bytes)
{
    for (size_t i = 0; i < count; i++)
        if (do_step(disk, &steps[i], bytes) != 0)
            return -1;
    return 0;
}

/* ---- in memory */

static int resize(struct boddurci_bytes *bytes, size_t length)
{
    if (length < bytes->length)
        memset(bytes->at + length, 0, bytes->length - length);
    return boddurci_set_length(bytes, length);
}

int boddurci_do_in_memory(struct boddurci_bytes files[2], const struct boddurci_steps *steps)
{
    for (size_t i = 0; i < steps->count; i++) {
        const boddurci_step *step = &steps->at[i];
        struct boddurci_bytes *file = &files[file_of(step)];
        if (!is_data(step))
            continue;
        if (step->kind == BODDURCI_RESIZE && resize(file, (size_t)step->length) != 0)
            return -1;
        if (step->kind == BODDURCI_WRITE && step->length != 0)
            memcpy(file->at + step->at, steps->bytes + step->from, (size_t)step->length);
    }
    return 0;
}

/* ---- lengths */

int boddurci_is_within_limits(const struct boddurci_steps *steps)
{
    for (size_t i = 0; i < steps->count; i++)
        if (steps->at[i].kind == BODDURCI_RESIZE && is_data(&steps->at[i]) && steps->at[i].length > boddurci_most_bytes(file_of(&steps->at[i])))
            return 0;
    return 1;
}

int boddurci_may_write(struct boddurci_disk *disk, const struct boddurci_steps *steps)
{
    for (size_t i = 0; i < steps->count; i++) {
        const boddurci_step *step = &steps->at[i];
        if (step->kind == BODDURCI_SYNC || step->at + step->length <= disk->most)
            continue;
        disk->last = file_of(step);
        errno = EFBIG;
        return -1;
    }
    return 0;
}

/* ---- disk space */

enum { BLOCK = 4096 };

/* The blocks that both data files need. */
struct need {
    uint64_t lengths[2]; /* the present lengths of the files */
    uint64_t absent;     /* the bytes in whole blocks that could not be allocated */
};

int boddurci_is_zero(const uint8_t *bytes, size_t size)
{
    return size == 0 || (bytes[0] == 0 && memcmp(bytes, bytes + 1, size - 1) == 0);
}

/* Returns whether a step writes a data file past its end or in a hole, which may have no blocks. In the buffer of a save, the bytes that a
 * step writes are followed by the present bytes of the file. */
static int needs_room(const struct boddurci_steps *steps, const boddurci_step *step, const struct need *need)
{
    if (step->kind != BODDURCI_WRITE || !is_data(step) || step->length == 0)
        return 0;
    if (step->at + step->length > need->lengths[step->file] || step->from + 2 * step->length > steps->length)
        return 1;
    return boddurci_is_zero(steps->bytes + step->from + step->length, (size_t)step->length);
}

/* Allocates the blocks of a range of a data file. If the file system cannot allocate blocks, counts these blocks as not allocated. */
static int reserve_run(struct boddurci_disk *disk, const boddurci_step *run, struct need *need)
{
    if (run->length == 0)
        return 0;
    enum boddurci_file file = file_of(run);
    int status = disk->files[file] < 0 ? 1 : boddurci_disk_reserve(disk, file, run->at, run->length);
    disk->has_reserved = 1;
    if (status > 0)
        need->absent += run->at % BLOCK + run->length + BLOCK - 1 - (run->at + run->length - 1) % BLOCK;
    return status < 0 ? -1 : 0;
}

/* Allocates the blocks that the steps after the commit may need, by one call for adjacent ranges. */
static int reserve_all(struct boddurci_disk *disk, const struct boddurci_steps *steps, struct need *need)
{
    boddurci_step run = {BODDURCI_WRITE, 0, 0, 0, 0};
    for (size_t i = steps->committed; i < steps->count; i++) {
        const boddurci_step *step = &steps->at[i];
        if (!needs_room(steps, step, need))
            continue;
        if (run.length != 0 && step->file == run.file && step->at == run.at + run.length) {
            run.length += step->length;
            continue;
        }
        if (reserve_run(disk, &run, need) != 0)
            return -1;
        run = *step;
    }
    return reserve_run(disk, &run, need);
}

/* Checks that the disk has room for `size` bytes past the end of the redo file: allocates or writes them, and frees them. */
static int try_behind(struct boddurci_disk *disk, uint64_t size)
{
    uint64_t length;
    if (boddurci_disk_length(disk, BODDURCI_REDO, &length) != 0)
        return -1;
    if (length + size > disk->most)
        return 0;
    int status = boddurci_disk_reserve(disk, BODDURCI_REDO, length, size);
    if (status > 0)
        status = boddurci_disk_zero(disk, BODDURCI_REDO, length, size);
    int system = errno, is_trimmed = boddurci_disk_trim(disk, BODDURCI_REDO, length);
    errno = status != 0 ? system : errno;
    return status != 0 ? status : is_trimmed;
}

void boddurci_release_room(struct boddurci_disk *disk)
{
    uint64_t length;
    int why = errno, last = (int)disk->last;
    for (enum boddurci_file file = BODDURCI_PAGES; !disk->keeps_room && file <= BODDURCI_DIRECTORY; file++)
        if (disk->files[file] >= 0 && boddurci_disk_length(disk, file, &length) == 0)
            (void)!boddurci_disk_trim(disk, file, length);
    disk->last = (enum boddurci_file)last;
    errno = why;
}

uint64_t boddurci_number_at(const uint8_t *at)
{
    return (uint64_t)at[0] | (uint64_t)at[1] << 8 | (uint64_t)at[2] << 16 | (uint64_t)at[3] << 24;
}

int boddurci_next_change(const uint8_t **at, const uint8_t *end, struct boddurci_plan_change *change)
{
    enum { HEAD = 9 };
    if (end - *at < HEAD)
        return 0;
    change->file = (*at)[0] == 0 ? BODDURCI_PAGES : BODDURCI_DIRECTORY;
    change->at = boddurci_number_at(*at + 1);
    change->length = (size_t)boddurci_number_at(*at + 5);
    *at += HEAD + 2 * change->length;
    return 1;
}

void boddurci_lengths_of(const uint8_t *bytes, int is_after, uint64_t lengths[2])
{
    const uint8_t *at = bytes + BODDURCI_PLAN_AT + (is_after ? 8 : 16);
    lengths[BODDURCI_PAGES] = boddurci_number_at(at);
    lengths[BODDURCI_DIRECTORY] = boddurci_number_at(at + 4);
}

int boddurci_needs_no_room(const struct boddurci_disk *disk, struct boddurci_bytes bytes)
{
    uint64_t before[2], after[2];
    struct boddurci_plan_change change;
    const uint8_t *at = bytes.at + BODDURCI_PLAN_AT + BODDURCI_CHANGES_AT, *end = bytes.at + bytes.length;
    boddurci_lengths_of(bytes.at, 0, before);
    boddurci_lengths_of(bytes.at, 1, after);
    for (enum boddurci_file file = BODDURCI_PAGES; file <= BODDURCI_DIRECTORY; file++)
        if (disk->files[file] < 0 || before[file] != after[file] || after[file] > disk->most || after[file] > boddurci_most_bytes(file))
            return 0;
    while (boddurci_next_change(&at, end, &change))
        if (boddurci_is_zero(at - change.length, change.length))
            return 0;
    return 1;
}

/* An open data file has the length in the plan, since the save has checked its length. A closed data file is opened to get its length. */
int boddurci_take_room(struct boddurci_disk *disk, const struct boddurci_steps *steps)
{
    struct need need = {{0, 0}, 0};
    disk->has_reserved = 0;
    boddurci_lengths_of(steps->bytes, 0, need.lengths);
    for (enum boddurci_file file = BODDURCI_PAGES; file <= BODDURCI_DIRECTORY; file++)
        if (disk->files[file] < 0 && boddurci_disk_length(disk, file, &need.lengths[file]) != 0)
            return -1;
    int status = reserve_all(disk, steps, &need);
    if (status == 0 && need.absent != 0)
        status = try_behind(disk, need.absent);
    if (status != 0)
        boddurci_release_room(disk);
    return status;
}
