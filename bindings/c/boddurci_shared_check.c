/* Decides whether the notes about the log in BASE.lock are right. The system writes the notes and the data files to the disk in any order, since
 * they are not synced. So a file system that is shut down and mounted again may have a note, and lack the records that it counts as applied,
 * without a start of the system. This cannot happen while a process has the files open. docs/DECISIONS.md has more under "Calls from C". */
#define _GNU_SOURCE
#include "boddurci_shared_base.h"
#include <fcntl.h>
#include <stdlib.h>
#include <string.h>
#include <unistd.h>

/* ---- the bytes of open handles */

/* A handle that may write BASE.lock has an exclusive lock (F_OFD_SETLK) on one of COUNT bytes of that file. So a user who may only read it cannot
 * make others trust the notes. boddurci_lock.c locks bytes before FIRST. */
enum { FIRST = 4096, COUNT = 1 << 30 };

/* More bytes of records are not compared with the data files: then the log is recovered. */
enum { RECORDS_MOST = 1 << 22 };

#ifdef F_OFD_SETLK
static struct flock bytes_of(int how, off_t first, off_t count)
{
    return (struct flock){.l_type = (short)how, .l_whence = SEEK_SET, .l_start = first, .l_len = count};
}

/* Returns whether another handle has a byte. */
static int is_in_use(const struct boddurci_place *place)
{
    struct flock bytes = bytes_of(F_RDLCK, FIRST, COUNT);
    return boddurci_is_local(place->folder) && fcntl(place->opened[BODDURCI_LOCK], F_OFD_GETLK, &bytes) == 0 && bytes.l_type != F_UNLCK;
}

/* Locks a byte, which by the time in nanoseconds is hardly that of another handle. If this fails, other handles only have to compare the files. */
static void take_byte(const struct boddurci_place *place)
{
    struct flock byte = bytes_of(F_WRLCK, FIRST + (off_t)(boddurci_new_epoch() % COUNT), 1);
    (void)!fcntl(place->opened[BODDURCI_LOCK], F_OFD_SETLK, &byte);
}

static void give_byte(const struct boddurci_place *place)
{
    struct flock bytes = bytes_of(F_UNLCK, FIRST, COUNT);
    (void)!fcntl(place->opened[BODDURCI_LOCK], F_OFD_SETLK, &bytes);
}
#else
static int is_in_use(const struct boddurci_place *place)
{
    (void)place;
    return 0;
}

static void take_byte(const struct boddurci_place *place)
{
    (void)place;
}

static void give_byte(const struct boddurci_place *place)
{
    (void)place;
}
#endif

void boddurci_hold_notes(struct boddurci_place *place)
{
    if (place->is_checked || place->opened[BODDURCI_LOCK] < 0)
        return;
    place->is_checked = 1;
    if (place->is_local)
        take_byte(place);
}

void boddurci_drop_notes(struct boddurci_place *place)
{
    if (place->is_checked && place->is_local && place->opened[BODDURCI_LOCK] >= 0)
        give_byte(place);
    place->is_checked = 0;
}

/* ---- the applied records */

/* A change of a data file. */
struct written {
    struct boddurci_plan_change change;
    const uint8_t *bytes; /* the new bytes; those of a later change have a higher address */
};

static int in_time(const void *one, const void *other)
{
    const uint8_t *a = ((const struct written *)one)->bytes, *b = ((const struct written *)other)->bytes;
    return a < b ? -1 : a > b;
}

static int in_place(const void *one, const void *other)
{
    const struct boddurci_plan_change *a = &((const struct written *)one)->change, *b = &((const struct written *)other)->change;
    if (a->file != b->file)
        return a->file < b->file ? -1 : 1;
    return a->at < b->at ? -1 : a->at > b->at;
}

static uint64_t end_of(const struct written *it)
{
    return it->change.at + it->change.length;
}

/* Returns the number of the first changes that form one range of a file: each but the first begins within those before it. Sets *end to the
 * end of the range. The changes are in the order of their places. */
static size_t range_of(const struct written *changes, size_t count, uint64_t *end)
{
    size_t next = 1;
    *end = end_of(changes);
    for (; next < count && changes[next].change.file == changes->change.file && changes[next].change.at < *end; next++)
        *end = end_of(&changes[next]) > *end ? end_of(&changes[next]) : *end;
    return next;
}

/* No descriptor, not even that of a missing file, which is -1. */
enum { NONE = -2 };

/* The data files, and the part of one of them that was read last. Each read takes as long as some KiB of it. */
struct data {
    int files[2];
    int read; /* the descriptor of the part's file, or NONE */
    uint64_t from;
    uint8_t part[4096];
};

/* Returns whether a data file has these bytes. */
static int has_bytes(struct data *data, int opened, uint64_t at, const uint8_t *bytes, size_t length)
{
    for (size_t size; length != 0; at += size, bytes += size, length -= size) {
        if (data->read != opened || at < data->from || at >= data->from + sizeof data->part) {
            if (opened < 0 || boddurci_read_at(opened, at, data->part, sizeof data->part) != 0)
                return 0;
            data->read = opened;
            data->from = at;
        }
        size_t past = (size_t)(at - data->from), most = sizeof data->part - past;
        size = length < most ? length : most;
        if (memcmp(data->part + past, bytes, size) != 0)
            return 0;
    }
    return 1;
}

/* Returns whether the data files have the last bytes of all changes. The changes are in the order of their places. `room` is a buffer for as many
 * bytes as they have. */
static int are_written(struct data *data, struct written *changes, size_t count, uint8_t *room)
{
    uint64_t end;
    for (size_t first = 0, some; first < count; first += some) {
        const struct boddurci_plan_change start = changes[first].change;
        some = range_of(changes + first, count - first, &end);
        qsort(changes + first, some, sizeof *changes, in_time);
        for (size_t i = first; i < first + some; i++)
            memcpy(room + (changes[i].change.at - start.at), changes[i].bytes, changes[i].change.length);
        if (!has_bytes(data, data->files[start.file], start.at, room, (size_t)(end - start.at)))
            return 0;
    }
    return 1;
}

/* Returns whether the data files have the last bytes of the changes of a plan. */
static int have_plan(struct data *data, const uint8_t *plan, size_t length, uint8_t *room)
{
    size_t count = length != 0 ? (size_t)boddurci_number_at(plan + BODDURCI_COUNT_AT) : 0, found = 0;
    struct written *changes = malloc((count + 1) * sizeof *changes);
    const uint8_t *at = plan + BODDURCI_CHANGES_AT, *end = plan + length;
    if (changes == NULL)
        return 0;
    while (found < count && boddurci_next_change(&at, end, &changes[found].change)) {
        changes[found].bytes = at - 2 * changes[found].change.length;
        found++;
    }
    qsort(changes, found, sizeof *changes, in_place);
    int are_right = found == count && are_written(data, changes, count, room);
    free(changes);
    return are_right;
}

/* Joins the plans of the first `end` bytes of records, which are not shorter than the joined plan. Sets *length to its length. */
static int join_records(int redo, size_t end, uint8_t *records, uint8_t *plan, size_t *length)
{
    *length = 0;
    if (boddurci_read_at(redo, BODDURCI_RECORDS_AT, records, end) != 0)
        return -1;
    for (size_t at = 0, used; at < end; at += used)
        if (boddurci_log_join(plan, end, length, records + at, end - at, &used) != BODDURCI_DONE)
            return -1;
    return 0;
}

/* Returns whether the data files have the applied records of a note. */
static int have_records(struct boddurci_place *place, int redo, const struct boddurci_log_note *note)
{
    struct data data = {.read = NONE};
    size_t end = note->applied, length;
    uint8_t *records = end <= RECORDS_MOST ? malloc(2 * end + 1) : NULL;
    if (records == NULL)
        return 0;
    for (enum boddurci_file file = BODDURCI_PAGES; file <= BODDURCI_DIRECTORY; file++)
        data.files[file] = boddurci_open_data(place, file, O_RDONLY);
    int are_right = join_records(redo, end, records, records + end, &length) == 0 && have_plan(&data, records + end, length, records);
    for (enum boddurci_file file = BODDURCI_PAGES; file <= BODDURCI_DIRECTORY; file++)
        if (data.files[file] >= 0)
            close(data.files[file]);
    free(records);
    return are_right;
}

/* Returns whether the data files have the applied records of a note, or another program has written them since: that program is right then
 * (boddurci_change_since). A file system that has lost bytes usually has times that are not later. If another program wrote last, its write
 * wins, and changes that were lost before stay lost. */
static int is_right(struct boddurci_place *place, int redo, const struct boddurci_log_note *note)
{
    struct boddurci_note files[2];
    for (enum boddurci_file file = BODDURCI_PAGES; file <= BODDURCI_DIRECTORY; file++)
        files[file] = boddurci_state_of(place->folder, place->names[file], 0, 1);
    if (boddurci_change_since(note, files) == BODDURCI_OTHERS)
        return 0;
    return boddurci_is_written_since(note, files) || (boddurci_have_lengths(note, files) && have_records(place, redo, note));
}

int boddurci_are_notes_right(struct boddurci_place *place, int redo, struct boddurci_log_note *note)
{
    note->is_compared = !place->is_checked && !is_in_use(place);
    return !note->is_compared || is_right(place, redo, note);
}

enum boddurci_noted boddurci_checked_note(struct boddurci_place *place, int redo, const struct boddurci_boot *boot,
                                          struct boddurci_log_note *note)
{
    enum boddurci_noted noted = boddurci_read_note(redo, boddurci_notes_of(place), boot, note);
    if (noted == BODDURCI_NOTED && !boddurci_are_notes_right(place, redo, note))
        return BODDURCI_UNKNOWN;
    if (noted == BODDURCI_NOTED)
        boddurci_hold_notes(place);
    return noted;
}
