/* Makes one call of a shared base on the page of its key. The caller holds the locks. */
#define _GNU_SOURCE
#include "boddurci_shared_base.h"
#include <errno.h>
#include <fcntl.h>
#include <string.h>
#include <unistd.h>

/* ---- the files */

static void drop(int *file)
{
    if (*file >= 0)
        close(*file);
    *file = -1;
}

void boddurci_drop_redo(boddurci_shared *shared)
{
    drop(&shared->files[BODDURCI_REDO]);
    boddurci_disk_drop(&shared->logged.disk, BODDURCI_REDO);
}

static void drop_data(boddurci_shared *shared)
{
    for (enum boddurci_file file = BODDURCI_PAGES; file <= BODDURCI_DIRECTORY; file++) {
        drop(&shared->files[file]);
        boddurci_disk_drop(&shared->logged.disk, file);
    }
    boddurci_see_none(&shared->place);
    boddurci_drop_notes(&shared->place);
}

void boddurci_drop_files(boddurci_shared *shared)
{
    drop_data(shared);
    boddurci_drop_redo(shared);
}

/* Returns whether the names of the data files still lead to the open files. */
static int are_named(const boddurci_shared *shared)
{
    for (enum boddurci_file file = BODDURCI_PAGES; file <= BODDURCI_DIRECTORY; file++) {
        const struct boddurci_seen *seen = &shared->place.seen[file];
        const struct boddurci_note *is = &shared->notes.files[file];
        if (seen->is_there != is->is_there || (seen->is_there && (seen->device != is->device || seen->number != is->number)))
            return 0;
    }
    return 1;
}

/* Opens both data files again. */
static uint32_t open_data(boddurci_shared *shared, boddurci_fault *fault)
{
    uint32_t status = BODDURCI_DONE;
    drop_data(shared);
    for (enum boddurci_file file = BODDURCI_PAGES; status == BODDURCI_DONE && file <= BODDURCI_DIRECTORY; file++)
        status = boddurci_open_to_read(&shared->place, file, 0, &shared->files[file], fault);
    boddurci_note_system(&shared->notes, &shared->place);
    return status;
}

/* Returns the length of a data file that is open, or -1. This takes less time than to look at its inode. */
static off_t length_of(const boddurci_shared *shared, enum boddurci_file file)
{
    int written = shared->logged.disk.files[file], opened = written >= 0 ? written : shared->files[file];
    return opened >= 0 ? lseek(opened, 0, SEEK_END) : -1;
}

/* Returns the state of a data file: of the open file if the names are the same, otherwise of the file under the name. */
static struct boddurci_note state_of(const boddurci_shared *shared, enum boddurci_file file, int has_times)
{
    const struct boddurci_place *place = &shared->place;
    const struct boddurci_seen *seen = &place->seen[file];
    if (!place->all.are_same || !seen->is_there)
        return boddurci_state_of(place->folder, place->names[file], 0, has_times);
    off_t length = has_times ? -1 : length_of(shared, file);
    if (length < 0)
        return boddurci_state_of(seen->opened, "", AT_EMPTY_PATH, has_times);
    return (struct boddurci_note){.is_there = 1, .device = seen->device, .number = seen->number, .length = length};
}

static const struct timespec never = {0, 0};

/* Returns whether a call has to read the times of the data files: the handle has not done so within this clock tick. After a look at the
 * times of a file, the system sets new times at the next write. Then the inodes have to be written too, and on some file systems each sync of
 * the log waits for that. */
static int needs_times(boddurci_shared *shared)
{
    struct boddurci_notes *notes = &shared->notes;
    struct timespec tick = boddurci_tick();
    notes->is_quick = notes->is_local && boddurci_is_same_time(tick, notes->tick);
    if (!notes->is_quick)
        notes->tick = tick;
    return !notes->is_quick;
}

/* Reads the state of the data files under their names, and opens these files unless they are already open. Another program may have
 * replaced the files that were open. */
static uint32_t find_files(boddurci_shared *shared, int has_times, boddurci_fault *fault)
{
    enum { TRIES = 3 };
    uint32_t status = BODDURCI_DONE;
    shared->notes.latest = never;
    for (int tries = 0; status == BODDURCI_DONE; tries++) {
        for (enum boddurci_file file = BODDURCI_PAGES; file <= BODDURCI_DIRECTORY; file++)
            shared->notes.files[file] = state_of(shared, file, has_times);
        if (are_named(shared))
            break;
        status = tries < TRIES ? open_data(shared, fault) : boddurci_fail(fault, BODDURCI_MOVED, 0, "BASE.pag or BASE.dir comes and goes");
    }
    return status;
}

/* Checks that .pag exists, if the base was opened with MUST_EXIST. Call this after the log was recovered or found applied: after a crash of
 * the machine, .pag may exist only in the log. */
static uint32_t has_to_exist(const boddurci_shared *shared, boddurci_fault *fault)
{
    if (shared->notes.files[BODDURCI_PAGES].is_there || !(shared->flags & BODDURCI_MUST_EXIST))
        return BODDURCI_DONE;
    errno = ENOENT;
    return boddurci_fail_by_system(fault, "a file cannot be opened");
}

uint32_t boddurci_open_redo(boddurci_shared *shared, int writes, int *redo, boddurci_fault *fault)
{
    const struct boddurci_place *place = &shared->place;
    struct boddurci_disk *disk = &shared->logged.disk;
    *redo = writes || disk->files[BODDURCI_REDO] >= 0 ? disk->files[BODDURCI_REDO] : shared->files[BODDURCI_REDO];
    if (*redo >= 0) {
        int is_written = *redo == disk->files[BODDURCI_REDO];
        if (place->all.are_same || boddurci_leads_to(place, BODDURCI_REDO, is_written ? boddurci_disk_redo(disk) : shared->redo))
            return BODDURCI_DONE;
        boddurci_drop_redo(shared);
    }
    shared->tail.room = 0;
    uint32_t status = boddurci_open_beside(place, BODDURCI_REDO, writes ? O_RDWR : O_RDONLY, redo, fault);
    if (writes)
        disk->files[BODDURCI_REDO] = *redo;
    else
        shared->files[BODDURCI_REDO] = *redo;
    shared->redo = boddurci_inode_of(shared->files[BODDURCI_REDO]);
    return status;
}

/* ---- the log */

/* Recovers the data files if the log has its mark, and reads their state again. */
static uint32_t recover(boddurci_shared *shared, boddurci_fault *fault)
{
    int is_ended;
    struct boddurci_logged *logged = &shared->logged;
    logged->is_open = 0;
    boddurci_disk_drop(&logged->disk, BODDURCI_REDO);
    uint32_t status = boddurci_logged_recover(logged, 0, &is_ended, fault);
    shared->notes.is_quick = 0;
    return status == BODDURCI_DONE ? find_files(shared, 1, fault) : status;
}

/* Continues the log that a note describes, where `change` says how the data files differ from the state in the note. If they have not changed,
 * their times are those in the note. If the log has a tail, its changes belong to exactly these files, so the call returns STALE if they
 * differ. */
static uint32_t continue_log(boddurci_shared *shared, int redo, const struct boddurci_log_note *note, enum boddurci_change change,
                             boddurci_fault *fault)
{
    struct boddurci_logged *logged = &shared->logged;
    const struct boddurci_tail *tail = &shared->tail;
    uint32_t status = change != BODDURCI_OTHERS ? boddurci_read_tail(shared, redo, note, fault) : BODDURCI_STALE;
    if (status == BODDURCI_DONE && change != BODDURCI_SAME && boddurci_has_tail(tail))
        status = BODDURCI_STALE;
    if (status != BODDURCI_DONE)
        return status;
    boddurci_see_log(shared);
    if (change == BODDURCI_SAME)
        boddurci_take_times(note, &shared->notes);
    logged->next = note->log;
    logged->next.end = tail->end.at;
    logged->next.count = tail->end.count;
    logged->epoch = note->epoch;
    logged->is_open = 1;
    return status;
}

/* Returns whether a long log was compared with the data files. Such a log is closed, since many short processes would compare it again and
 * again. */
static int is_long(const struct boddurci_log_note *note, const struct boddurci_tail *tail)
{
    enum { LONG = 16384 };
    return note->is_compared && note->applied > LONG && !boddurci_has_tail(tail);
}

/* Ensures that the data files have all saves: the log has no mark, or all its records are applied or in its tail. If a program that does not
 * know the log has written the data files since the last save, the data files are the database, and the log is closed. So is a long log. */
static uint32_t settle_log(boddurci_shared *shared, boddurci_fault *fault)
{
    int redo;
    boddurci_fault second;
    struct boddurci_log_note note;
    struct boddurci_logged *logged = &shared->logged;
    enum boddurci_noted noted = BODDURCI_UNKNOWN;
    logged->is_open = logged->is_given_up = 0;
    boddurci_no_tail(&shared->tail);
    if (boddurci_open_redo(shared, 1, &redo, &second) == BODDURCI_DONE)
        noted = redo < 0 ? BODDURCI_UNMARKED : boddurci_checked_note(&shared->place, redo, &shared->boot, &note);
    if (noted == BODDURCI_UNMARKED)
        return shared->notes.is_quick ? find_files(shared, 1, fault) : BODDURCI_DONE;
    enum boddurci_change change = noted == BODDURCI_NOTED ? boddurci_change_since(&note, shared->notes.files) : BODDURCI_OTHERS;
    uint32_t status = continue_log(shared, redo, &note, change, fault);
    if (status == BODDURCI_STALE) {
        boddurci_no_tail(&shared->tail);
        return recover(shared, fault);
    }
    if (status != BODDURCI_DONE || (change == BODDURCI_SAME && !is_long(&note, &shared->tail)))
        return status;
    status = boddurci_logged_renew(logged, fault);
    return status == BODDURCI_DONE && shared->notes.is_quick ? find_files(shared, 1, fault) : status;
}

/* Returns whether the data files are other files than those of the note, or the log has a tail and they have changed. */
static int are_others(boddurci_shared *shared, const struct boddurci_log_note *note)
{
    struct boddurci_note files[2];
    if (!boddurci_has_tail(&shared->tail))
        return boddurci_change_since(note, shared->notes.files) == BODDURCI_OTHERS;
    int has_times = needs_times(shared);
    for (enum boddurci_file file = BODDURCI_PAGES; file <= BODDURCI_DIRECTORY; file++)
        files[file] = state_of(shared, file, has_times);
    return boddurci_change_since(note, files) != BODDURCI_SAME;
}

/* Reads the tail of the log for a fetch. Sets *must_recover to 1 if the log must be recovered first. */
static uint32_t look_at_log(boddurci_shared *shared, int *must_recover, boddurci_fault *fault)
{
    int redo;
    struct boddurci_log_note note;
    uint32_t status = boddurci_open_redo(shared, 0, &redo, fault);
    boddurci_no_tail(&shared->tail);
    if (status != BODDURCI_DONE || redo < 0)
        return status;
    enum boddurci_noted noted = boddurci_checked_note(&shared->place, redo, &shared->boot, &note);
    *must_recover = noted == BODDURCI_UNKNOWN && !boddurci_has_writer(&shared->place);
    if (noted == BODDURCI_NOTED)
        status = boddurci_read_tail(shared, redo, &note, fault);
    if (noted == BODDURCI_NOTED && status == BODDURCI_DONE && are_others(shared, &note))
        status = BODDURCI_STALE;
    *must_recover = *must_recover || status == BODDURCI_STALE;
    /* The call that recovers has to read the times again, even within this tick. */
    if (*must_recover)
        shared->notes.tick = never;
    return *must_recover ? BODDURCI_DONE : status;
}

/* Returns whether the redo file has the owner, the group and the permissions of .pag. Looks at most once in a clock tick. */
static int is_alike(boddurci_shared *shared)
{
    struct timespec tick = boddurci_tick();
    struct boddurci_inode redo = boddurci_disk_redo(&shared->logged.disk), *alike = &shared->alike;
    if (redo.is_known && redo.device == alike->device && redo.number == alike->number && boddurci_is_same_time(tick, shared->alike_at))
        return 1;
    if (!boddurci_is_like_pages(&shared->place, shared->logged.disk.files[BODDURCI_REDO]))
        return 0;
    *alike = redo;
    shared->alike_at = tick;
    return 1;
}

/* Closes an open log and removes the redo file if it does not have the owner, the group and the permissions of .pag, since other users
 * would not accept it. A user who may write .pag but does not own it cannot give the redo file to the owner of .pag. */
static void remove_unlike(boddurci_shared *shared)
{
    boddurci_fault unsaid;
    struct boddurci_disk *disk = &shared->logged.disk;
    int redo = disk->files[BODDURCI_REDO];
    if (!shared->logged.is_open || is_alike(shared))
        return;
    if (boddurci_apply_tail(shared, &unsaid) != BODDURCI_DONE)
        return;
    int is_named = boddurci_is_named(&shared->place, BODDURCI_REDO, redo);
    if (boddurci_logged_renew(&shared->logged, &unsaid) == BODDURCI_DONE && is_named)
        (void)!(boddurci_disk_remove_redo(disk) == 0 && boddurci_disk_sync(disk, BODDURCI_REDO) == 0);
}

/* ---- calls */

/* Executes a command on the page that was read, and saves the page. Uses the result of boddurci_work_ahead if it is right. */
static uint32_t change_part(boddurci_shared *shared, struct boddurci_command *command, const struct boddurci_part *part, int *is_whole,
                            boddurci_fault *fault)
{
    int are_free;
    uint32_t status;
    struct boddurci_planned planned;
    if (!boddurci_take_ahead(shared, part, command, &planned, &status))
        status = boddurci_execute(shared, command, part, &planned, is_whole);
    if (*is_whole)
        return BODDURCI_DONE;
    if (status != BODDURCI_DONE)
        return boddurci_fail(fault, status, 0, boddurci_text(status));
    if (planned.length == 0)
        return status;
    status = boddurci_are_free(shared, part, &planned, &are_free, fault);
    *is_whole = status == BODDURCI_DONE && !are_free;
    return status != BODDURCI_DONE || *is_whole ? status : boddurci_save_or_append(shared, planned.length, fault);
}

uint32_t boddurci_change_page(boddurci_shared *shared, struct boddurci_command *command, int *is_whole, boddurci_fault *fault)
{
    struct boddurci_part part;
    *is_whole = shared->logged.is_open = 0;
    shared->tail.owed = 0;
    shared->tail.is_touched = 0;
    boddurci_no_tail(&shared->tail);
    uint32_t status = find_files(shared, needs_times(shared), fault);
    if (status == BODDURCI_DONE)
        status = settle_log(shared, fault);
    if (status == BODDURCI_DONE)
        boddurci_hold_notes(&shared->place);
    if (status == BODDURCI_DONE && !shared->place.all.are_same)
        boddurci_note_all_names(&shared->place, shared->notes.files);
    if (status == BODDURCI_DONE)
        status = has_to_exist(shared, fault);
    if (status == BODDURCI_DONE)
        status = boddurci_read_part(shared, command, &part, is_whole, fault);
    if (status == BODDURCI_DONE && !*is_whole)
        status = change_part(shared, command, &part, is_whole, fault);
    if (!*is_whole)
        boddurci_owe_tail(shared);
    remove_unlike(shared);
    return status;
}

uint32_t boddurci_fetch_page(boddurci_shared *shared, struct boddurci_command *command, int *must_recover, int *is_whole,
                             boddurci_fault *fault)
{
    struct boddurci_part part;
    struct boddurci_planned planned;
    *must_recover = *is_whole = 0;
    shared->tail.owed = 0;
    shared->tail.is_touched = 0;
    uint32_t status = find_files(shared, 0, fault);
    if (status == BODDURCI_DONE)
        status = look_at_log(shared, must_recover, fault);
    if (status != BODDURCI_DONE || *must_recover)
        return status;
    status = has_to_exist(shared, fault);
    if (status == BODDURCI_DONE)
        status = boddurci_read_part(shared, command, &part, is_whole, fault);
    if (status != BODDURCI_DONE || *is_whole)
        return status;
    status = boddurci_execute(shared, command, &part, &planned, is_whole);
    if (*is_whole)
        return BODDURCI_DONE;
    boddurci_owe_tail(shared);
    return status == BODDURCI_DONE ? status : boddurci_fail(fault, status, 0, boddurci_text(status));
}

void boddurci_read_ahead(boddurci_shared *shared)
{
    int is_whole;
    size_t length;
    uint8_t room[1];
    struct boddurci_part part;
    boddurci_fault unsaid;
    struct boddurci_planned planned;
    struct boddurci_command command = {.kind = BODDURCI_FETCH, .key = BODDURCI_NO_BYTES, .room = room, .value_length = &length};
    boddurci_no_tail(&shared->tail);
    boddurci_note_system(&shared->notes, &shared->place);
    if (find_files(shared, 0, &unsaid) == BODDURCI_DONE && boddurci_read_part(shared, &command, &part, &is_whole, &unsaid) == BODDURCI_DONE &&
        !is_whole)
        (void)!boddurci_execute(shared, &command, &part, &planned, &is_whole);
    memset(shared->last, 0, sizeof shared->last);
}

/* ---- after a call */

static int is_flushed_tail(const struct boddurci_log_note *note)
{
    return note->applied < note->flushed && note->flushed >= note->log.end;
}

/* Applies the tail of the log, under both locks. */
static void apply_flushed(boddurci_shared *shared)
{
    int redo;
    boddurci_fault unsaid;
    struct boddurci_log_note note;
    if (find_files(shared, needs_times(shared), &unsaid) != BODDURCI_DONE)
        return;
    if (boddurci_open_redo(shared, 1, &redo, &unsaid) != BODDURCI_DONE || redo < 0)
        return;
    if (boddurci_checked_note(&shared->place, redo, &shared->boot, &note) != BODDURCI_NOTED || !is_flushed_tail(&note))
        return;
    enum boddurci_change change = boddurci_change_since(&note, shared->notes.files);
    if (change != BODDURCI_SAME || continue_log(shared, redo, &note, change, &unsaid) != BODDURCI_DONE)
        return;
    if (shared->tail.flushed >= shared->tail.end.at)
        (void)!boddurci_apply_tail(shared, &unsaid);
}

void boddurci_try_to_apply(boddurci_shared *shared)
{
    struct boddurci_log_note note;
    int redo = shared->logged.disk.files[BODDURCI_REDO];
    int lock = boddurci_notes_of(&shared->place);
    if (redo < 0 || boddurci_look_at_note(redo, lock, &shared->boot, &note) != BODDURCI_NOTED || !is_flushed_tail(&note))
        return;
    if (!boddurci_try_change(&shared->place))
        return;
    boddurci_hold_signal(&shared->logged.disk);
    apply_flushed(shared);
    boddurci_give_signal(&shared->logged.disk);
    boddurci_give_call(&shared->place, 0);
}
