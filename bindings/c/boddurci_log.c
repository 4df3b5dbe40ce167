/* The log of a base in BASE.redo: opens it, appends the record of each save, and closes it. The library returns the steps
 * (crates/sdbm_log), and boddurci_steps.c executes them. */
#define _POSIX_C_SOURCE 200809L
#include "boddurci_saves.h"
#include <errno.h>
#include <fcntl.h>
#include <stdlib.h>
#include <string.h>
#include <sys/stat.h>
#include <unistd.h>

/* ROOM is the usual room of a log, and LEAST_ROOM its room if the disk has no more. A redo file without a mark that is longer than
 * MOST_UNUSED is removed, since opening a base for writing reads the redo file. */
static const size_t ROOM = 1 << 20, LEAST_ROOM = 1 << 16, MOST_UNUSED = 1 << 24;

/* If saves fill a log within SOON milliseconds, a log with GROWN_ROOM replaces it, since emptying a log takes a sync of both data files. */
static const size_t GROWN_ROOM = 1 << 22;
static const int64_t SOON = 1000;

static uint32_t cannot_be_written(const struct boddurci_disk *disk, boddurci_fault *fault)
{
    static const char *const what[3] = {"BASE.pag cannot be written", "BASE.dir cannot be written", "BASE.redo cannot be written"};
    return boddurci_fail_by_system(fault, what[disk->last]);
}

/* Sets the fault of a save that was committed before a call failed. */
static uint32_t is_pending(const struct boddurci_disk *disk, boddurci_fault *fault)
{
    static const char *const what[3] = {"the save is kept in BASE.redo, and BASE.pag could not be written",
                                        "the save is kept in BASE.redo, and BASE.dir could not be written",
                                        "the save is done, and BASE.redo could not be emptied"};
    return boddurci_fail(fault, BODDURCI_DONE, errno, what[disk->last]);
}

static uint32_t too_long(boddurci_fault *fault)
{
    return boddurci_fail(fault, BODDURCI_TOO_LONG, 0, boddurci_files_text(BODDURCI_TOO_LONG));
}

/* ---- getting steps from the library */

static const uint8_t *or_none(struct boddurci_bytes bytes)
{
    static const uint8_t none[1];
    return bytes.at != NULL ? bytes.at : none;
}

static void free_steps(struct boddurci_steps *steps)
{
    free(steps->at);
    free(steps->own);
    steps->at = NULL;
    steps->own = NULL;
}

/* Sets the fault for the status of a library call that returned no steps. */
static uint32_t refused(uint32_t status, boddurci_fault *fault)
{
    switch (status) {
    case BODDURCI_BAD_FILES:
        return boddurci_fail(fault, BODDURCI_BAD_REDO, 0,
                             "BASE.redo is marked, and is not of these files: an older copy was put back, or another program wrote them");
    case BODDURCI_STALE:
        return boddurci_fail(fault, BODDURCI_BAD_REDO, 0, "BASE.redo is marked, and a record in the middle of its log is damaged");
    case BODDURCI_NO_MEMORY: return boddurci_no_memory(fault);
    default: return too_long(fault);
    }
}

enum { WORDS = sizeof(boddurci_step) / sizeof(uint64_t) };

/* Allocates buffers for steps and their bytes. */
static int make_rooms(struct boddurci_steps *steps, size_t words, size_t bytes)
{
    free_steps(steps);
    steps->at = malloc((words + 1) * sizeof(uint64_t));
    steps->own = malloc(bytes + 1);
    steps->bytes = steps->own;
    return steps->at != NULL && steps->own != NULL ? 0 : -1;
}

/* Gets the steps that open the log of these files with `room` bytes. If `log` is NULL, gets the steps that apply the saves in the redo file
 * to copies of the data files. */
static uint32_t ask(const struct boddurci_bytes files[3], size_t room, boddurci_log *log, struct boddurci_steps *steps, boddurci_fault *fault)
{
    const uint8_t *pag = or_none(files[0]), *dir = or_none(files[1]), *redo = or_none(files[2]);
    size_t words = 16 * WORDS, bytes = 64, word_room, byte_room;
    uint32_t status = BODDURCI_SHORT_ROOM;
    while (status == BODDURCI_SHORT_ROOM) {
        word_room = words, byte_room = bytes;
        if (make_rooms(steps, words, bytes) != 0)
            return boddurci_no_memory(fault);
        if (log != NULL)
            status = boddurci_log_open(pag, files[0].length, dir, files[1].length, redo, files[2].length, room, log, steps->own, byte_room,
                                       &bytes, (uint64_t *)steps->at, word_room, &words);
        else
            status = boddurci_log_read(pag, files[0].length, dir, files[1].length, redo, files[2].length, steps->own, byte_room, &bytes,
                                       (uint64_t *)steps->at, word_room, &words);
    }
    if (status != BODDURCI_DONE)
        return refused(status, fault);
    steps->count = words / WORDS;
    steps->length = bytes;
    return boddurci_is_within_limits(steps) ? status : too_long(fault);
}

/* Gets the steps of a save. Each change of a plan has at least 32 old bytes and 32 new bytes, so the first buffer is usually long
 * enough. */
static uint32_t ask_save(struct boddurci_bytes bytes, boddurci_log *log, struct boddurci_steps *steps, boddurci_fault *fault)
{
    size_t words = (bytes.length / 64 + 32) * WORDS, room, committed = 0;
    uint32_t status = BODDURCI_SHORT_ROOM;
    while (status == BODDURCI_SHORT_ROOM) {
        room = words;
        if (make_rooms(steps, room, 0) != 0)
            return boddurci_no_memory(fault);
        status = boddurci_log_save(log, bytes.at, bytes.length, (uint64_t *)steps->at, room, &words, &committed);
    }
    if (status != BODDURCI_DONE)
        return refused(status, fault);
    steps->count = words / WORDS;
    steps->committed = committed / WORDS;
    steps->bytes = bytes.at;
    steps->length = bytes.length;
    if (boddurci_is_within_limits(steps))
        return status;
    return boddurci_fail(fault, BODDURCI_TOO_LONG, 0, "a file would be too long: 1 GiB of pages and 256 MiB of directory is the most");
}

/* ---- the mark */

/* Returns 1 if an open redo file begins with its mark, 0 if not, and -1 on failure. */
static int has_mark(int opened)
{
    uint8_t first = 0;
    ssize_t got;
    do
        got = pread(opened, &first, 1, 0);
    while (got < 0 && errno == EINTR);
    return got < 0 ? -1 : got == 1 && first == 1;
}

/* Opens the redo file for reading, and sets *is_marked to whether it has its mark. If it is missing, *opened is -1 and *is_marked 0. */
static uint32_t look(const struct boddurci_place *place, int *opened, int *is_marked, boddurci_fault *fault)
{
    *is_marked = 0;
    uint32_t status = boddurci_open_beside(place, BODDURCI_REDO, O_RDONLY, opened, fault);
    if (status == BODDURCI_DONE && *opened >= 0)
        *is_marked = has_mark(*opened);
    return *is_marked < 0 ? boddurci_fail_by_system(fault, "BASE.redo cannot be read") : status;
}

static uint32_t look_only(const struct boddurci_place *place, int *is_marked, boddurci_fault *fault)
{
    int opened = -1;
    uint32_t status = look(place, &opened, is_marked, fault);
    if (opened >= 0)
        close(opened);
    return status;
}

/* ---- opening */

/* Clears the epoch of the notes of shared bases, which makes these notes invalid. */
static int clear_epoch(struct boddurci_logged *logged)
{
    struct boddurci_disk *disk = &logged->disk;
    disk->last = BODDURCI_REDO;
    logged->epoch = 0;
    return disk->files[BODDURCI_REDO] < 0 ? 0 : boddurci_clear_epoch(disk->files[BODDURCI_REDO]);
}

void boddurci_logged_of(struct boddurci_logged *logged, struct boddurci_place *place, struct boddurci_notes *notes)
{
    boddurci_disk_of(&logged->disk, place);
    logged->notes = notes;
    logged->group = NULL;
    logged->is_open = logged->is_doubtful = logged->is_given_up = logged->is_grown = logged->is_sharing = 0;
    logged->epoch = 0;
}

/* Abandons the log after a failed call: the next opening recovers the base. Clears the epoch of the notes of shared bases, so that their next
 * call recovers the log too: if a sync has failed, a later one may succeed without writing the lost bytes. Removes the redo file if it has
 * no mark: it is useless then, and its bytes on the disk may differ from those in the page cache. */
static void give_up(struct boddurci_logged *logged)
{
    struct boddurci_disk *disk = &logged->disk;
    int system = errno, last = (int)disk->last, redo = disk->files[BODDURCI_REDO];
    logged->is_open = 0;
    logged->is_given_up = 1;
    (void)!clear_epoch(logged);
    if (redo >= 0 && has_mark(redo) == 0) {
        if (disk->has_reserved)
            boddurci_release_room(disk);
        logged->is_doubtful = !boddurci_is_named(disk->place, BODDURCI_REDO, redo) || boddurci_disk_remove_redo(disk) != 0;
    }
    boddurci_disk_drop(disk, BODDURCI_REDO);
    disk->last = (enum boddurci_file)last;
    errno = system;
}

/* Removes the redo file if it has no mark and this user may not write it. Call this after opening it for writing has failed. */
static uint32_t remove_denied(struct boddurci_disk *disk, boddurci_fault *fault)
{
    boddurci_fault second;
    int is_marked, is_denied = fault->status == BODDURCI_FILE_FAILED && fault->system == EACCES;
    if (!is_denied || look_only(disk->place, &is_marked, &second) != BODDURCI_DONE || is_marked)
        return fault->status;
    return boddurci_disk_remove_redo(disk) == 0 ? boddurci_no_fault(fault) : cannot_be_written(disk, fault);
}

/* Opens the redo file for writing, if it exists. */
static uint32_t open_redo(struct boddurci_disk *disk, boddurci_fault *fault)
{
    int *opened = &disk->files[BODDURCI_REDO];
    disk->last = BODDURCI_REDO;
    boddurci_disk_drop(disk, BODDURCI_REDO);
    uint32_t status = boddurci_open_beside(disk->place, BODDURCI_REDO, O_RDWR, opened, fault);
    return status == BODDURCI_DONE ? status : remove_denied(disk, fault);
}

/* Returns whether to replace the open redo file: it lacks the owner, the group or the permissions of .pag, and this user owns it or is root.
 * It must not get them, unless this process has made it: another user may have moved a private file of root to this name. */
static int is_to_be_replaced(const struct boddurci_disk *disk)
{
    struct stat found;
    int opened = disk->files[BODDURCI_REDO];
    if (disk->has_made_redo || boddurci_is_like_pages(disk->place, opened) || boddurci_look_at(opened, &found) != 0)
        return 0;
    return found.st_uid == geteuid() || geteuid() == 0;
}

/* Removes an open redo file without a mark if it is to be replaced, if it is too long, or if an earlier call on it failed. */
static uint32_t remove_useless(struct boddurci_logged *logged, boddurci_fault *fault)
{
    struct boddurci_disk *disk = &logged->disk;
    uint64_t length;
    if (boddurci_disk_length(disk, BODDURCI_REDO, &length) != 0)
        return cannot_be_written(disk, fault);
    int must = logged->is_doubtful || length > MOST_UNUSED;
    if (!must && !is_to_be_replaced(disk))
        return BODDURCI_DONE;
    if (boddurci_disk_remove_redo(disk) == 0)
        logged->is_doubtful = 0;
    else if (must || (errno != EACCES && errno != EPERM && errno != EROFS))
        return cannot_be_written(disk, fault);
    else /* A file in a folder that this user may not write is used as it is. */
        return boddurci_open_beside(disk->place, BODDURCI_REDO, O_RDWR, &disk->files[BODDURCI_REDO], fault);
    return BODDURCI_DONE;
}

/* Reads the redo file, and both data files if the redo file has its mark. */
static uint32_t read_files(struct boddurci_logged *logged, struct boddurci_bytes files[3], int *is_marked, boddurci_fault *fault)
{
    struct boddurci_disk *disk = &logged->disk;
    *is_marked = 0;
    uint32_t status = open_redo(disk, fault);
    if (status != BODDURCI_DONE || disk->files[BODDURCI_REDO] < 0)
        return status;
    *is_marked = has_mark(disk->files[BODDURCI_REDO]);
    if (*is_marked < 0)
        return boddurci_fail_by_system(fault, "BASE.redo cannot be read");
    if (!*is_marked)
        status = remove_useless(logged, fault);
    if (status == BODDURCI_DONE && disk->files[BODDURCI_REDO] >= 0)
        status = boddurci_read_all(disk->files[BODDURCI_REDO], BODDURCI_REDO, &files[BODDURCI_REDO], fault);
    for (enum boddurci_file file = BODDURCI_PAGES; *is_marked && status == BODDURCI_DONE && file <= BODDURCI_DIRECTORY; file++)
        status = boddurci_read_data(disk->place, file, &files[file], fault);
    return status;
}

static int make_shared(struct boddurci_disk *disk)
{
    static const uint8_t head[1] = {1};
    boddurci_step steps[2];
    size_t words;
    if (boddurci_log_share((uint64_t *)steps, 2 * WORDS, &words) == BODDURCI_DONE)
        return boddurci_do_steps(disk, steps, words / WORDS, head);
    errno = ENOMEM;
    return -1;
}

/* Declares in the header of a log without records that several records may be unflushed, if this base writes such records. */
static int share(struct boddurci_logged *logged)
{
    if (!logged->is_sharing || boddurci_is_log_shared(logged->disk.files[BODDURCI_REDO]))
        return 0;
    return make_shared(&logged->disk);
}

/* Executes the steps that open the log. If the redo file has its mark, first overwrites the file with the bytes that were read from it. If
 * an earlier sync of the file failed, the bytes on the disk may differ, and a sync alone would not write them. */
static uint32_t do_open(struct boddurci_logged *logged, struct boddurci_bytes redo, const struct boddurci_steps *steps, boddurci_fault *fault)
{
    struct boddurci_disk *disk = &logged->disk;
    boddurci_clear_epoch_in(&redo);
    int is_written = redo.length != 0 ? boddurci_disk_write(disk, BODDURCI_REDO, 0, redo.at, redo.length) == 0 : clear_epoch(logged) == 0;
    logged->epoch = 0;
    if (is_written && boddurci_do_steps(disk, steps->at, steps->count, steps->bytes) == 0 && share(logged) == 0) {
        logged->is_open = 1;
        logged->is_given_up = 0;
        logged->emptied = boddurci_now();
        return BODDURCI_DONE;
    }
    give_up(logged);
    return cannot_be_written(disk, fault);
}

/* Opens the log with `room` bytes. Recovers the data files if the redo file has its mark. */
static uint32_t try_open(struct boddurci_logged *logged, size_t room, boddurci_fault *fault)
{
    struct boddurci_bytes files[3] = {{NULL, 0, 0}, {NULL, 0, 0}, {NULL, 0, 0}}, none = {NULL, 0, 0};
    struct boddurci_steps steps = {NULL, 0, 0, NULL, 0, NULL};
    int is_marked;
    uint32_t status = read_files(logged, files, &is_marked, fault);
    if (status == BODDURCI_DONE)
        status = ask(files, room, &logged->next, &steps, fault);
    for (enum boddurci_file file = BODDURCI_PAGES; file <= BODDURCI_DIRECTORY; file++)
        boddurci_let_go(&files[file]);
    if (status == BODDURCI_DONE)
        status = do_open(logged, is_marked ? files[BODDURCI_REDO] : none, &steps, fault);
    boddurci_let_go(&files[BODDURCI_REDO]);
    free_steps(&steps);
    return status;
}

static int is_full(const boddurci_fault *fault)
{
    int system = fault->status == BODDURCI_FILE_FAILED ? fault->system : 0;
    return system == ENOSPC || system == EDQUOT || system == EFBIG;
}

/* Opens the log. If it is then in a file that is to be replaced, all saves in that file are in the data files, so it is opened again in a new
 * file. */
static uint32_t open_log(struct boddurci_logged *logged, boddurci_fault *fault)
{
    if (boddurci_take_files(logged->disk.place) != 0)
        return boddurci_fail_by_system(fault, "BASE.lock cannot be locked");
    const size_t rooms[3] = {GROWN_ROOM, ROOM, LEAST_ROOM};
    uint32_t status = BODDURCI_DONE;
    for (int i = logged->is_grown ? 0 : 1; i < 3; i++) {
        boddurci_no_fault(fault);
        status = try_open(logged, rooms[i], fault);
        if (status == BODDURCI_DONE && logged->disk.files[BODDURCI_REDO] >= 0 && is_to_be_replaced(&logged->disk)) {
            logged->is_open = 0;
            status = try_open(logged, rooms[i], fault);
        }
        if (status == BODDURCI_DONE || !is_full(fault))
            break;
    }
    return status;
}

/* Closes the log if a note of a shared base says that all records are applied: programs that do not know the log may have changed the data
 * files since. */
static uint32_t close_applied(struct boddurci_logged *logged, int *is_ended, boddurci_fault *fault)
{
    struct boddurci_disk *disk = &logged->disk;
    uint32_t status = open_redo(disk, fault);
    if (status != BODDURCI_DONE || !boddurci_is_applied(disk->place, disk->files[BODDURCI_REDO], &logged->next))
        return status;
    if (boddurci_take_files(disk->place) != 0)
        return boddurci_fail_by_system(fault, "BASE.lock cannot be locked");
    logged->is_open = 1;
    logged->is_given_up = *is_ended = 0;
    return boddurci_logged_renew(logged, fault);
}

uint32_t boddurci_logged_recover(struct boddurci_logged *logged, int are_names_same, int *is_ended, boddurci_fault *fault)
{
    boddurci_fault second;
    struct boddurci_disk *disk = &logged->disk;
    *is_ended = 0;
    if (logged->is_open && (are_names_same || boddurci_leads_to(disk->place, BODDURCI_REDO, boddurci_disk_redo(disk))))
        return BODDURCI_DONE;
    logged->is_open = 0;
    boddurci_disk_drop(disk, BODDURCI_REDO);
    uint32_t status = look_only(disk->place, is_ended, fault);
    if (status == BODDURCI_DONE && !*is_ended)
        logged->is_given_up = 0;
    if (status != BODDURCI_DONE || !*is_ended)
        return status;
    status = close_applied(logged, is_ended, fault);
    if (status != BODDURCI_DONE || !*is_ended)
        return status;
    status = open_log(logged, fault);
    int is_marked = 1;
    if (status != BODDURCI_FILE_FAILED || look_only(disk->place, &is_marked, &second) != BODDURCI_DONE || is_marked)
        return status;
    /* The data files are recovered, but there is no room for a new log yet. */
    logged->is_given_up = 0;
    return boddurci_no_fault(fault);
}

/* ---- saving */

/* Returns whether the steps that commit a save only append its record to the log, without emptying the log first. */
static int only_append(const struct boddurci_steps *steps)
{
    for (size_t i = 0; i < steps->committed; i++)
        if (steps->at[i].file < 2 || (steps->at[i].kind != BODDURCI_WRITE && steps->at[i].kind != BODDURCI_SYNC))
            return 0;
    return 1;
}

/* Returns whether to replace the log by a longer one before a save, that is, whether the save would empty the log less than SOON
 * milliseconds after it was last empty. A save that is long or shortens a file empties any log, so more room would not help. */
static int has_to_grow(const struct boddurci_logged *logged, const struct boddurci_steps *steps)
{
    enum { FEW = 4 };
    uint64_t before[2], after[2];
    int may_grow = !logged->is_grown && logged->next.room < GROWN_ROOM && steps->length <= logged->next.room / FEW;
    if (!may_grow || only_append(steps) || boddurci_now() - logged->emptied >= SOON)
        return 0;
    boddurci_lengths_of(steps->bytes, 0, before);
    boddurci_lengths_of(steps->bytes, 1, after);
    return after[BODDURCI_PAGES] >= before[BODDURCI_PAGES] && after[BODDURCI_DIRECTORY] >= before[BODDURCI_DIRECTORY];
}

/* Closes the log and opens a log with more room, or with the usual room if the disk has no more. A base does this at most once. */
static uint32_t grow(struct boddurci_logged *logged, boddurci_fault *fault)
{
    logged->is_grown = 1;
    if (boddurci_take_files(logged->disk.place) != 0)
        return boddurci_fail_by_system(fault, "BASE.lock cannot be locked");
    uint32_t status = boddurci_logged_renew(logged, fault);
    return status == BODDURCI_DONE ? open_log(logged, fault) : status;
}

/* Gets the steps of a save. Makes the log longer first if necessary. */
static uint32_t ask_in_log(struct boddurci_logged *logged, struct boddurci_bytes bytes, boddurci_log *next, struct boddurci_steps *steps,
                           boddurci_fault *fault)
{
    *next = logged->next;
    uint32_t status = ask_save(bytes, next, steps, fault);
    if (status != BODDURCI_DONE || !has_to_grow(logged, steps))
        return status;
    status = grow(logged, fault);
    *next = logged->next;
    return status == BODDURCI_DONE ? ask_save(bytes, next, steps, fault) : status;
}

/* Commits a save. Readers may read the data files meanwhile, except while the log is emptied. */
static int commit(struct boddurci_logged *logged, const struct boddurci_steps *steps)
{
    int appends = only_append(steps);
    if (!appends && boddurci_take_files(logged->disk.place) != 0)
        return -1;
    if ((appends || clear_epoch(logged) == 0) && boddurci_do_steps(&logged->disk, steps->at, steps->committed, steps->bytes) == 0)
        return 0;
    give_up(logged);
    return -1;
}

/* Writes a committed save to the data files. The other threads of the save return as soon as readers have to wait for these writes. */
static int apply(struct boddurci_logged *logged, const struct boddurci_steps *steps)
{
    struct boddurci_disk *disk = &logged->disk;
    if (boddurci_take_files(disk->place) != 0)
        return -1;
    if (logged->group != NULL)
        boddurci_group_serve(logged->group);
    boddurci_look_meanwhile(logged->notes, disk);
    return boddurci_do_steps(disk, steps->at + steps->committed, steps->count - steps->committed, steps->bytes);
}

/* Commits a save and writes it to the data files. */
static uint32_t do_save(struct boddurci_logged *logged, const struct boddurci_steps *steps, int *is_left, boddurci_fault *fault)
{
    struct boddurci_disk *disk = &logged->disk;
    if (boddurci_may_write(disk, steps) != 0 || boddurci_take_room(disk, steps) != 0)
        return cannot_be_written(disk, fault);
    if (commit(logged, steps) != 0)
        return cannot_be_written(disk, fault);
    *is_left = apply(logged, steps) != 0;
    if (!*is_left)
        return BODDURCI_DONE;
    give_up(logged);
    return is_pending(disk, fault);
}

uint32_t boddurci_logged_save(struct boddurci_logged *logged, struct boddurci_bytes bytes, int *is_left, boddurci_fault *fault)
{
    struct boddurci_steps steps = {NULL, 0, 0, NULL, 0, NULL};
    uint32_t status = logged->is_open ? BODDURCI_DONE : open_log(logged, fault);
    boddurci_log next;
    *is_left = 0;
    if (status == BODDURCI_DONE)
        status = ask_in_log(logged, bytes, &next, &steps, fault);
    int empties = status == BODDURCI_DONE && !only_append(&steps);
    if (status == BODDURCI_DONE)
        status = do_save(logged, &steps, is_left, fault);
    if (status == BODDURCI_DONE)
        logged->next = next;
    if (empties)
        logged->emptied = boddurci_now();
    free_steps(&steps);
    return status;
}

/* ---- saves that are flushed later */

/* Gets the steps that apply a plan, after `first` free steps. */
static uint32_t ask_apply(struct boddurci_bytes bytes, size_t first, struct boddurci_steps *steps, boddurci_fault *fault)
{
    size_t words = (bytes.length / 64 + 32) * WORDS, room;
    uint32_t status = BODDURCI_SHORT_ROOM;
    while (status == BODDURCI_SHORT_ROOM) {
        room = words;
        if (make_rooms(steps, first * WORDS + room, 0) != 0)
            return boddurci_no_memory(fault);
        status = boddurci_log_apply(bytes.at, bytes.length, (uint64_t *)(steps->at + first), room, &words);
    }
    if (status != BODDURCI_DONE)
        return refused(status, fault);
    steps->count = first + words / WORDS;
    steps->committed = first;
    steps->bytes = bytes.at;
    steps->length = bytes.length;
    return status;
}

/* Makes room for `count` steps on these bytes. */
static uint32_t begin_steps(struct boddurci_bytes bytes, size_t count, struct boddurci_steps *steps, boddurci_fault *fault)
{
    if (make_rooms(steps, count * WORDS, 0) != 0)
        return boddurci_no_memory(fault);
    steps->count = steps->committed = count;
    steps->bytes = bytes.at;
    steps->length = bytes.length;
    return BODDURCI_DONE;
}

/* Gets the step that appends the record of a save, and then the steps that apply it, unless the plan needs no room. Returns STALE, without a
 * fault, if the log cannot take the record. */
static uint32_t ask_append(const struct boddurci_disk *disk, struct boddurci_bytes bytes, boddurci_log *log, struct boddurci_steps *steps,
                           boddurci_fault *fault)
{
    size_t words;
    uint32_t status = boddurci_needs_no_room(disk, bytes) ? begin_steps(bytes, 1, steps, fault) : ask_apply(bytes, 1, steps, fault);
    if (status != BODDURCI_DONE)
        return status;
    status = boddurci_log_append(log, bytes.at, bytes.length, (uint64_t *)steps->at, WORDS, &words);
    if (status != BODDURCI_DONE)
        return status == BODDURCI_STALE ? status : refused(status, fault);
    return boddurci_is_within_limits(steps) ? status : BODDURCI_STALE;
}

uint32_t boddurci_logged_share(struct boddurci_logged *logged, boddurci_fault *fault)
{
    logged->is_sharing = 1;
    if (logged->is_open && boddurci_is_log_shared(logged->disk.files[BODDURCI_REDO]))
        return BODDURCI_DONE;
    uint32_t status = boddurci_logged_renew(logged, fault);
    return status == BODDURCI_DONE ? open_log(logged, fault) : status;
}

/* Returns whether both data files exist or remain empty: only the steps of a usual save make a file. */
static int have_files(struct boddurci_disk *disk, const struct boddurci_steps *steps)
{
    uint64_t after[2];
    boddurci_lengths_of(steps->bytes, 1, after);
    for (enum boddurci_file file = BODDURCI_PAGES; file <= BODDURCI_DIRECTORY; file++)
        if (boddurci_disk_find(disk, file) != 0 || (after[file] != 0 && disk->files[file] < 0))
            return 0;
    return 1;
}

static uint32_t do_append(struct boddurci_logged *logged, const struct boddurci_steps *steps, boddurci_fault *fault)
{
    struct boddurci_disk *disk = &logged->disk;
    disk->keeps_room = 1;
    int has_room = boddurci_may_write(disk, steps) == 0 && boddurci_take_room(disk, steps) == 0;
    disk->keeps_room = 0;
    if (!has_room)
        return cannot_be_written(disk, fault);
    if (boddurci_do_steps(disk, steps->at, steps->committed, steps->bytes) == 0)
        return BODDURCI_DONE;
    give_up(logged);
    return cannot_be_written(disk, fault);
}

uint32_t boddurci_logged_append(struct boddurci_logged *logged, struct boddurci_bytes bytes, int *is_appended, boddurci_fault *fault)
{
    struct boddurci_steps steps = {NULL, 0, 0, NULL, 0, NULL};
    boddurci_log next = logged->next;
    uint32_t status = ask_append(&logged->disk, bytes, &next, &steps, fault);
    *is_appended = status == BODDURCI_DONE && have_files(&logged->disk, &steps);
    if (*is_appended)
        status = do_append(logged, &steps, fault);
    *is_appended = *is_appended && status == BODDURCI_DONE;
    if (*is_appended)
        logged->next = next;
    free_steps(&steps);
    return status == BODDURCI_STALE ? BODDURCI_DONE : status;
}

/* Abandons the log after a failed call on records that are not applied: the next call recovers the log. */
static uint32_t lose(struct boddurci_logged *logged, boddurci_fault *fault)
{
    uint32_t status = cannot_be_written(&logged->disk, fault);
    give_up(logged);
    return status;
}

uint32_t boddurci_logged_flush(struct boddurci_logged *logged, boddurci_fault *fault)
{
    return boddurci_disk_sync(&logged->disk, BODDURCI_REDO) == 0 ? BODDURCI_DONE : lose(logged, fault);
}

uint32_t boddurci_logged_apply(struct boddurci_logged *logged, struct boddurci_bytes bytes, boddurci_fault *fault)
{
    struct boddurci_steps steps = {NULL, 0, 0, NULL, 0, NULL};
    uint32_t status = ask_apply(bytes, 0, &steps, fault);
    logged->disk.has_reserved = 0;
    if (status == BODDURCI_DONE && apply(logged, &steps) != 0)
        status = lose(logged, fault);
    free_steps(&steps);
    return status;
}

/* ---- the mark of an open base */

int boddurci_logged_is_marked(const struct boddurci_logged *logged)
{
    return logged->is_open && logged->next.end != 0;
}

static void put_number(uint8_t *at, uint64_t number)
{
    for (int i = 0; i < 4; i++)
        at[i] = (uint8_t)(number >> 8 * i);
}

/* Commits a plan that changes nothing; boddurci.h has its form. Leaves out the steps after the commit, since both files already have their
 * lengths. */
static uint32_t commit_nothing(struct boddurci_logged *logged, const uint64_t lengths[2], boddurci_fault *fault)
{
    uint8_t record[BODDURCI_PLAN_AT + 28] = {0}, *plan = record + BODDURCI_PLAN_AT;
    struct boddurci_bytes bytes = {record, sizeof record, 0};
    struct boddurci_steps steps = {NULL, 0, 0, NULL, 0, NULL};
    boddurci_log next = logged->next;
    memcpy(plan, "sdbmred2", 8);
    for (int i = 0; i < 4; i++)
        put_number(plan + 8 + 4 * i, lengths[i % 2]);
    uint32_t status = ask_save(bytes, &next, &steps, fault);
    if (status == BODDURCI_DONE && boddurci_do_steps(&logged->disk, steps.at, steps.committed, steps.bytes) != 0) {
        give_up(logged);
        status = cannot_be_written(&logged->disk, fault);
    }
    if (status == BODDURCI_DONE)
        logged->next = next;
    free_steps(&steps);
    return status;
}

uint32_t boddurci_logged_mark(struct boddurci_logged *logged, boddurci_fault *fault)
{
    struct boddurci_disk *disk = &logged->disk;
    uint64_t lengths[2];
    if (boddurci_logged_is_marked(logged))
        return BODDURCI_DONE;
    for (enum boddurci_file file = BODDURCI_PAGES; file <= BODDURCI_DIRECTORY; file++)
        if (boddurci_disk_length(disk, file, &lengths[file]) != 0)
            return cannot_be_written(disk, fault);
    if (disk->files[BODDURCI_PAGES] < 0)
        return BODDURCI_DONE;
    if (boddurci_take_files(disk->place) != 0)
        return boddurci_fail_by_system(fault, "BASE.lock cannot be locked");
    /* If the mark fails, give_up must not free blocks of the data files: the next save would take the new times for a write of another
     * program. */
    disk->has_reserved = 0;
    uint32_t status = logged->is_open ? BODDURCI_DONE : open_log(logged, fault);
    return status == BODDURCI_DONE ? commit_nothing(logged, lengths, fault) : status;
}

/* ---- closing */

/* Clears the mark and the epoch of the notes of shared bases by one write, since the process may be killed between two writes. If it had
 * cleared only the epoch, the marked log would be recovered, although another program may have written the data files since. If it had
 * cleared only the mark, a note could later apply to other records that end at the same place. */
static int clear_mark(struct boddurci_disk *disk)
{
    uint8_t header[BODDURCI_HEADER_USED];
    size_t length;
    disk->last = BODDURCI_REDO;
    if (boddurci_unmarked_header(disk->files[BODDURCI_REDO], header, &length) != 0)
        return -1;
    return boddurci_disk_write(disk, BODDURCI_REDO, 0, header, length);
}

/* Executes a step that closes the log. The steps are the syncs of both data files, the write that clears the mark, and the sync of the redo
 * file. For the write, calls clear_mark, which also clears the epoch. If a step fails, the caller gives up the log: the data files may lack
 * written bytes, so the next call has to recover them. */
static int close_by(struct boddurci_logged *logged, const boddurci_step *step)
{
    struct boddurci_disk *disk = &logged->disk;
    if (step->file >= 2 && step->kind != BODDURCI_SYNC)
        return clear_mark(disk);
    return boddurci_do_steps(disk, step, 1, (const uint8_t *)step);
}

/* Executes the steps that close the log. */
static int close_log(struct boddurci_logged *logged)
{
    boddurci_step steps[8];
    size_t words;
    if (boddurci_log_close((uint64_t *)steps, sizeof steps / sizeof *steps * WORDS, &words) != BODDURCI_DONE) {
        errno = ENOMEM;
        return -1;
    }
    for (size_t i = 0; i < words / WORDS; i++)
        if (close_by(logged, &steps[i]) != 0)
            return -1;
    logged->epoch = 0;
    return 0;
}

uint32_t boddurci_logged_renew(struct boddurci_logged *logged, boddurci_fault *fault)
{
    int is_closed = !logged->is_open || logged->next.end == 0 || close_log(logged) == 0;
    if (!is_closed)
        give_up(logged);
    logged->is_open = 0;
    boddurci_disk_drop(&logged->disk, BODDURCI_REDO);
    return is_closed ? BODDURCI_DONE : cannot_be_written(&logged->disk, fault);
}

/* Returns whether the next opening can use the redo file: it has the owner, the group and the permissions of .pag, and is not too long. */
static int is_of_use(struct boddurci_disk *disk)
{
    uint64_t length;
    return boddurci_is_like_pages(disk->place, disk->files[BODDURCI_REDO]) && boddurci_disk_length(disk, BODDURCI_REDO, &length) == 0 &&
           length <= MOST_UNUSED;
}

void boddurci_logged_end(struct boddurci_logged *logged)
{
    struct boddurci_disk *disk = &logged->disk;
    boddurci_fault lost;
    logged->is_open = logged->is_open && boddurci_are_held(disk->place, &lost) == BODDURCI_DONE;
    boddurci_hold_signal(disk);
    if (logged->is_open && logged->next.end != 0 && close_log(logged) != 0)
        give_up(logged);
    else if (logged->is_open && !is_of_use(disk) && boddurci_is_named(disk->place, BODDURCI_REDO, disk->files[BODDURCI_REDO]))
        (void)!(boddurci_disk_remove_redo(disk) == 0 && boddurci_disk_sync(disk, BODDURCI_REDO) == 0);
    logged->is_open = 0;
    boddurci_give_signal(disk);
    boddurci_disk_close(disk);
}

/* ---- reading */

/* Syncs a marked redo file for a reader. Without the sync a crash of the machine could lose a save that the reader has already returned. A
 * read-only file system needs no sync. */
static uint32_t keep_marked(struct boddurci_place *place, int redo, boddurci_fault *fault)
{
    if ((boddurci_keep_opened(redo) == 0 && boddurci_keep_folder(place) == 0) || errno == EROFS || errno == EINVAL)
        return BODDURCI_DONE;
    return boddurci_fail_by_system(fault, "BASE.redo cannot be kept");
}

/* Reads both data files and applies the saves of a marked redo file. */
static uint32_t read_done(struct boddurci_place *place, int redo, struct boddurci_bytes files[3], boddurci_fault *fault)
{
    struct boddurci_steps steps = {NULL, 0, 0, NULL, 0, NULL};
    uint32_t status = boddurci_read_all(redo, BODDURCI_REDO, &files[BODDURCI_REDO], fault);
    if (status == BODDURCI_DONE)
        status = keep_marked(place, redo, fault);
    for (enum boddurci_file file = BODDURCI_PAGES; status == BODDURCI_DONE && file <= BODDURCI_DIRECTORY; file++)
        status = boddurci_read_data(place, file, &files[file], fault);
    if (status == BODDURCI_DONE)
        status = ask(files, 0, NULL, &steps, fault);
    if (status == BODDURCI_DONE && boddurci_do_in_memory(files, &steps) != 0)
        status = boddurci_no_memory(fault);
    free_steps(&steps);
    return status;
}

uint32_t boddurci_read_marked(struct boddurci_place *place, int *is_marked, struct boddurci_bytes files[2], boddurci_fault *fault)
{
    struct boddurci_bytes all[3] = {{NULL, 0, 0}, {NULL, 0, 0}, {NULL, 0, 0}};
    boddurci_log log;
    int opened = -1;
    uint32_t status = look(place, &opened, is_marked, fault);
    if (status == BODDURCI_DONE && *is_marked)
        *is_marked = !boddurci_is_applied(place, opened, &log);
    if (status == BODDURCI_DONE && *is_marked)
        status = read_done(place, opened, all, fault);
    if (opened >= 0)
        close(opened);
    boddurci_let_go(&all[BODDURCI_REDO]);
    files[BODDURCI_PAGES] = all[BODDURCI_PAGES];
    files[BODDURCI_DIRECTORY] = all[BODDURCI_DIRECTORY];
    return status;
}
