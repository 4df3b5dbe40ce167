/* Changes of a shared base that are flushed later: the tail of the log, and the flushes that processes share. boddurci_shared_base.h and
 * docs/DESIGN.md ("The log of saves") say how the parts work together. */
#define _GNU_SOURCE
#include "boddurci_shared_base.h"
#include <errno.h>
#include <fcntl.h>
#include <sched.h>
#include <stdlib.h>
#include <string.h>
#include <sys/file.h>
#include <time.h>
#include <unistd.h>

/* A record is this much longer than its plan. */
enum { HEAD = 8 };

/* If a change with NO_FLUSH leaves a tail of DUE bytes, its process flushes the tail after it has released the locks. Once FLUSHED_LEAST bytes
 * of the tail are flushed, the next change with NO_FLUSH applies it. */
enum { DUE = BODDURCI_TAIL_MOST / 4 * 3, FLUSHED_LEAST = BODDURCI_TAIL_MOST / 2 };

/* ---- the joined plan */

void boddurci_no_tail(struct boddurci_tail *tail)
{
    static const struct boddurci_end start;
    tail->epoch = tail->flushed = 0;
    tail->applied = tail->noted = 0;
    tail->end = start;
    tail->is_shared = 0;
}

/* Forgets the joined plan, and begins a new one at the end of the applied records. */
static void begin_plan(struct boddurci_tail *tail)
{
    tail->length = 0;
    tail->plan_epoch = tail->epoch;
    tail->from = tail->joined.at = tail->applied;
    tail->changes_directory = 0;
    memset(tail->changed, 0, sizeof tail->changed);
}

/* Notes the blocks of .pag that a plan changes, and whether it changes .dir. */
static void note_changes(struct boddurci_tail *tail, const uint8_t *plan, size_t length)
{
    struct boddurci_plan_change change;
    const uint8_t *at = plan + BODDURCI_CHANGES_AT;
    while (boddurci_next_change(&at, plan + length, &change)) {
        if (change.file == BODDURCI_DIRECTORY)
            tail->changes_directory = 1;
        else
            for (uint64_t block = change.at / BODDURCI_BLOCK; block * BODDURCI_BLOCK < change.at + change.length; block++)
                tail->changed[block / 8 % sizeof tail->changed] |= (uint8_t)(1 << block % 8);
    }
}

/* Returns whether the joined plan may change a part of a data file. */
static int may_change(const struct boddurci_tail *tail, enum boddurci_file file, uint64_t from, size_t length)
{
    if (file == BODDURCI_DIRECTORY)
        return tail->changes_directory;
    for (uint64_t block = from / BODDURCI_BLOCK; block * BODDURCI_BLOCK < from + length; block++)
        if (tail->changed[block / 8 % sizeof tail->changed] >> block % 8 & 1)
            return 1;
    return 0;
}

/* Returns the end at offset `at` of the log, after a record with this length whose bytes end at `stop`. */
static struct boddurci_end end_after(size_t at, size_t count, const uint8_t *stop, size_t record)
{
    size_t length = record < BODDURCI_WITNESS_MOST ? record : BODDURCI_WITNESS_MOST;
    struct boddurci_end end = {at, count, at - length, boddurci_witness_of(stop - length, length)};
    return end;
}

/* Joins the plan of the first of some records to the joined plan. */
static uint32_t join_next(struct boddurci_tail *tail, const uint8_t *records, size_t length)
{
    size_t used = 0;
    if (tail->bytes == NULL && (tail->bytes = malloc(BODDURCI_PLAN_AT + BODDURCI_TAIL_MOST)) == NULL)
        return BODDURCI_NO_MEMORY;
    uint32_t status = boddurci_log_join(tail->bytes + BODDURCI_PLAN_AT, BODDURCI_TAIL_MOST, &tail->length, records, length, &used);
    if (status != BODDURCI_DONE)
        return status;
    size_t count = (size_t)boddurci_number_at(records + HEAD + BODDURCI_COUNT_AT);
    note_changes(tail, records + HEAD, used - HEAD);
    tail->joined = end_after(tail->joined.at + used, tail->joined.count + count, records + used, used);
    return status;
}

/* A piece of a log that was read: its start and its bytes, which are followed by BODDURCI_NEXT more. */
struct piece {
    const uint8_t *bytes;
    size_t start, length;
};

/* Joins the plans of the records in a piece of the log, up to the end `known`, and those of all whole records after it. Only zeros may follow
 * these, or if this process holds no lock, a record that is being written. Only a shared log may have records after `known`: the last record
 * of another log may not be flushed, and nothing says that it is a tail. */
static uint32_t join(struct boddurci_tail *tail, struct piece piece, const struct boddurci_end *known, int is_locked)
{
    const size_t stop = piece.start + piece.length;
    if (tail->joined.at <= known->at)
        tail->joined.count = known->count;
    for (;;) {
        size_t at = tail->joined.at, before = tail->joined.count;
        int is_known = at < known->at;
        const uint8_t *records = piece.bytes + (at - piece.start);
        if (!is_known && boddurci_is_zero(records, BODDURCI_NEXT))
            return BODDURCI_DONE;
        uint32_t status = is_known || tail->is_shared ? join_next(tail, records, (is_known ? known->at : stop) - at) : BODDURCI_STALE;
        if (is_known)
            tail->joined.count = before;
        if (status == BODDURCI_DONE)
            continue;
        if (status == BODDURCI_BAD_FILES && !is_known && !is_locked)
            return BODDURCI_DONE;
        begin_plan(tail);
        return status == BODDURCI_NO_MEMORY ? status : BODDURCI_STALE;
    }
}

/* Returns whether a piece of a log has the last bytes before an end. */
static int has_end(struct piece piece, const struct boddurci_end *end)
{
    return boddurci_witness_of(piece.bytes + (end->last - piece.start), end->at - end->last) == end->witness;
}

/* Returns whether a piece of a log has the records of the joined plan after an end. */
static int has_kept_records(const struct boddurci_tail *tail, struct piece piece, const struct boddurci_end *end)
{
    if (tail->joined.at <= end->at)
        return 1;
    return memcmp(piece.bytes + (end->at - piece.start), tail->kept + (end->at - tail->kept_from), tail->joined.at - end->at) == 0;
}

/* Keeps the records of the joined plan after an end. A note describes the records before its end, but nothing describes those after it. */
static void keep_records(struct boddurci_tail *tail, struct piece piece, const struct boddurci_end *end)
{
    tail->kept_from = end->at;
    if (tail->joined.at > end->at)
        memcpy(tail->kept, piece.bytes + (end->at - piece.start), tail->joined.at - end->at);
}

/* Begins a new joined plan if the present one is not of this tail, or if its records after the end `known` are not kept. */
static void prepare_plan(struct boddurci_tail *tail, const struct boddurci_end *known)
{
    int is_of_tail = tail->length != 0 && tail->plan_epoch == tail->epoch && tail->from == tail->applied;
    int is_beyond = tail->joined.at > known->at, is_kept = tail->kept_from <= known->at && tail->joined.at <= known->at + BODDURCI_UNNOTED_MOST;
    if (!is_of_tail || (is_beyond && !is_kept))
        begin_plan(tail);
}

/* Joins the plans of all records of the tail, whose end is known from the note or from this call, and sets its end. Reads the records that are
 * not in the joined plan yet, and checks that the log has the last bytes before the known end, and the records of the joined plan after it.
 * The bytes of shared->plan are lost. */
static uint32_t join_tail(boddurci_shared *shared, int redo, int is_locked, boddurci_fault *fault)
{
    struct boddurci_tail *tail = &shared->tail;
    const struct boddurci_end known = tail->end;
    if (known.at - tail->applied > BODDURCI_TAIL_MOST)
        return BODDURCI_STALE;
    prepare_plan(tail, &known);
    struct piece piece = {shared->plan, tail->joined.at < known.last ? tail->joined.at : known.last, 0};
    piece.length = known.at + BODDURCI_UNNOTED_MOST - piece.start;
    if (boddurci_read_at(redo, BODDURCI_RECORDS_AT + piece.start, shared->plan, piece.length + BODDURCI_NEXT) != 0)
        return boddurci_fail_by_system(fault, "BASE.redo cannot be read");
    if (!has_end(piece, &known) || !has_kept_records(tail, piece, &known))
        return BODDURCI_STALE;
    uint32_t status = join(tail, piece, &known, is_locked);
    if (status != BODDURCI_DONE)
        return status == BODDURCI_NO_MEMORY ? boddurci_no_memory(fault) : status;
    keep_records(tail, piece, &known);
    if (tail->joined.at == known.at)
        tail->joined = known;
    tail->end = tail->joined;
    /* The flushed records are no longer there: a copy of the log was put back. */
    return is_locked && tail->flushed > tail->end.at ? BODDURCI_STALE : status;
}

static uint32_t read_tail(boddurci_shared *shared, int redo, const struct boddurci_log_note *note, int is_locked, boddurci_fault *fault)
{
    struct boddurci_tail *tail = &shared->tail;
    const struct boddurci_end end = {note->log.end, note->log.count, note->last, note->witness};
    tail->epoch = note->epoch;
    tail->applied = note->applied;
    tail->noted = note->log.end;
    tail->end = end;
    tail->flushed = note->flushed;
    tail->is_shared = note->is_shared;
    if (tail->room != note->log.room && !boddurci_has_room(redo, note))
        return BODDURCI_STALE;
    tail->room = note->log.room;
    return join_tail(shared, redo, is_locked, fault);
}

uint32_t boddurci_read_tail(boddurci_shared *shared, int redo, const struct boddurci_log_note *note, boddurci_fault *fault)
{
    return read_tail(shared, redo, note, 1, fault);
}

/* The joined plan stays valid for later calls if the log has its epoch then. An epoch is cleared before its log is emptied, and never comes
 * back, so the log was not emptied between this note and that call, and its records up to the end have not changed. */
uint32_t boddurci_glance_at_tail(boddurci_shared *shared, int redo, const struct boddurci_log_note *note)
{
    boddurci_fault unsaid;
    return read_tail(shared, redo, note, 0, &unsaid);
}

int boddurci_lay_tail(struct boddurci_tail *tail, enum boddurci_file file, size_t from, uint8_t *part, size_t length)
{
    uint32_t is_touched = 0;
    if (!boddurci_has_tail(tail) || !may_change(tail, file, from, length))
        return 0;
    if (boddurci_log_lay(tail->bytes + BODDURCI_PLAN_AT, tail->length, file, from, part, length, &is_touched) != BODDURCI_DONE) {
        errno = EIO;
        return -1;
    }
    tail->is_touched = tail->is_touched || is_touched;
    return 0;
}

/* ---- saving */

/* Notes the state of both data files after this call has written them. On a local file system the present time is as good as the times of
 * the files, which are not later. */
static void note_written(boddurci_shared *shared)
{
    struct timespec now;
    const struct boddurci_place *place = &shared->place;
    int has_times = !shared->notes.is_local;
    clock_gettime(CLOCK_REALTIME, &now);
    for (enum boddurci_file file = BODDURCI_PAGES; file <= BODDURCI_DIRECTORY; file++) {
        int opened = shared->logged.disk.files[file], folder = opened >= 0 ? opened : place->folder;
        const char *name = opened >= 0 ? "" : place->names[file];
        struct boddurci_note *is = &shared->notes.files[file];
        *is = boddurci_state_of(folder, name, opened >= 0 ? AT_EMPTY_PATH : 0, has_times);
        if (!has_times)
            is->changed = is->written = now;
    }
}

/* Notes the end of the log, which is that of the record of this plan. */
static void note_record(boddurci_shared *shared, struct boddurci_bytes plan)
{
    const boddurci_log *next = &shared->logged.next;
    shared->tail.end = end_after(next->end, next->count, plan.at + plan.length, plan.length - BODDURCI_PLAN_AT + HEAD);
}

/* Writes a note, and makes it valid if it is the first of its log. The epoch is written last. */
static int put_note(boddurci_shared *shared, const struct boddurci_log_note *note, int is_new)
{
    struct boddurci_disk *disk = &shared->logged.disk;
    int lock = boddurci_notes_of(&shared->place);
    int status = boddurci_put_note(lock, &shared->boot, note, shared->notes.files);
    if (status == 0 && is_new)
        status = boddurci_put_flushed(lock, note->epoch, note->applied) | boddurci_put_failed(lock, 0);
    if (status == 0 && is_new)
        status = boddurci_put_epoch(disk->files[BODDURCI_REDO], note->epoch);
    disk->is_too_long = disk->is_too_long || (status != 0 && errno == EFBIG);
    return status;
}

/* Returns whether the next call finds the record of this call without a new note, since it reads the records after the end in the note. A call
 * that is flushed leaves a note, so that the flush of another process covers its record. */
static int needs_no_note(const boddurci_shared *shared)
{
    const struct boddurci_tail *tail = &shared->tail;
    const struct boddurci_logged *logged = &shared->logged;
    int is_of_log = logged->epoch != 0 && logged->epoch == tail->epoch && !shared->notes.is_overtaken;
    int is_unflushed = (shared->flags & BODDURCI_NO_FLUSH) && !logged->disk.has_reserved;
    return is_of_log && is_unflushed && logged->next.end - tail->noted <= BODDURCI_UNNOTED_MOST;
}

/* Leaves a note for the next call, with the noted state of the data files. Closes the log instead in three cases: if another program has
 * written during this call, since the records may not belong to these files; if the boot id is unknown, since a note is valid for one boot
 * only; or if the note cannot be written. If this fails too, the next call recovers the files. Returns -1 if the note cannot be written and
 * the log has a tail, so that it was not closed. */
static int leave_note(boddurci_shared *shared)
{
    boddurci_fault unsaid;
    struct boddurci_logged *logged = &shared->logged;
    struct boddurci_tail *tail = &shared->tail;
    struct boddurci_log_note note = {.log = logged->next, .applied = tail->applied, .last = tail->end.last, .witness = tail->end.witness};
    boddurci_settle_locks(&shared->place);
    if (!boddurci_logged_is_marked(logged))
        return 0;
    int is_valid = !shared->notes.is_overtaken && shared->boot.is_known, is_new = logged->epoch == 0;
    if (is_valid && is_new)
        logged->epoch = boddurci_new_epoch();
    note.epoch = tail->epoch = logged->epoch;
    tail->end.at = logged->next.end;
    if (is_valid && put_note(shared, &note, is_new) == 0) {
        tail->noted = note.log.end;
        return 0;
    }
    if (is_valid && boddurci_has_tail(tail))
        return -1;
    (void)!boddurci_logged_renew(logged, &unsaid);
    return 0;
}

uint32_t boddurci_apply_tail(boddurci_shared *shared, boddurci_fault *fault)
{
    struct boddurci_tail *tail = &shared->tail;
    struct boddurci_logged *logged = &shared->logged;
    if (!boddurci_has_tail(tail))
        return BODDURCI_DONE;
    /* If this call has a plan in shared->plan, boddurci_read_tail has joined all records. */
    uint32_t status = tail->joined.at < tail->end.at ? join_tail(shared, logged->disk.files[BODDURCI_REDO], 1, fault) : BODDURCI_DONE;
    if (status == BODDURCI_STALE)
        return boddurci_fail(fault, BODDURCI_BAD_REDO, 0, boddurci_files_text(BODDURCI_BAD_REDO));
    shared->notes.is_overtaken = 0;
    if (status == BODDURCI_DONE && tail->flushed < tail->end.at)
        status = boddurci_logged_flush(logged, fault);
    struct boddurci_bytes plan = {tail->bytes, BODDURCI_PLAN_AT + tail->length, 0};
    if (status == BODDURCI_DONE)
        status = boddurci_logged_apply(logged, plan, fault);
    if (status != BODDURCI_DONE)
        return status;
    tail->applied = tail->flushed = tail->end.at;
    tail->owed = tail->length = 0;
    note_written(shared);
    (void)!leave_note(shared);
    return status;
}

/* Returns whether a change may be flushed after the locks are released: nobody requires a flush, or other processes wait for the locks or
 * have just changed the base. A note is needed for that, and a local file system: another machine would not see bytes that are not
 * flushed. */
static int is_flushed_later(const boddurci_shared *shared)
{
    int is_possible = shared->boot.is_known && shared->place.is_local;
    int is_used = shared->place.has_waited || boddurci_has_tail(&shared->tail);
    return is_possible && ((shared->flags & BODDURCI_NO_FLUSH) || is_used);
}

/* Returns whether several records of the log may be unflushed, and it already has a record. The first record of a log sets the mark, and is
 * flushed at once. */
static int accepts_unflushed(const boddurci_shared *shared)
{
    return shared->tail.is_shared && boddurci_logged_is_marked(&shared->logged);
}

/* Returns whether to apply the tail before a record is appended: there is no room for the record, or most of the tail is flushed. A base without
 * NO_FLUSH leaves the latter to the next flush. */
static int has_to_apply(const struct boddurci_shared *shared, size_t record)
{
    const struct boddurci_tail *tail = &shared->tail;
    int is_flushed = (shared->flags & BODDURCI_NO_FLUSH) && tail->flushed >= tail->applied + FLUSHED_LEAST;
    return is_flushed || tail->end.at - tail->applied + record > BODDURCI_TAIL_MOST;
}

/* Appends the record of a plan without a sync. Sets *is_appended to 0 if the plan must be saved in the usual way. */
static uint32_t append(boddurci_shared *shared, struct boddurci_bytes plan, int *is_appended, boddurci_fault *fault)
{
    struct boddurci_tail *tail = &shared->tail;
    struct boddurci_logged *logged = &shared->logged;
    size_t record = plan.length - BODDURCI_PLAN_AT + HEAD;
    uint32_t status = BODDURCI_DONE;
    *is_appended = 0;
    if (record > BODDURCI_TAIL_MOST)
        return status;
    if (!accepts_unflushed(shared))
        return boddurci_logged_share(logged, fault);
    if (has_to_apply(shared, record))
        status = boddurci_apply_tail(shared, fault);
    if (status != BODDURCI_DONE || !accepts_unflushed(shared))
        return status;
    shared->notes.is_overtaken = 0;
    status = boddurci_logged_append(logged, plan, is_appended, fault);
    /* Even a refused append may have changed the times of the data files. */
    if (logged->disk.has_reserved)
        note_written(shared);
    if (*is_appended)
        note_record(shared, plan);
    /* If a note is needed and cannot be written, the record is flushed and applied at once. */
    boddurci_settle_locks(&shared->place);
    int has_to_note = status != BODDURCI_DONE || (*is_appended && !needs_no_note(shared));
    int is_noted = has_to_note ? leave_note(shared) == 0 : 1;
    if (!is_noted)
        return status == BODDURCI_DONE ? boddurci_apply_tail(shared, fault) : status;
    tail->is_later = tail->is_later || (*is_appended && (shared->flags & BODDURCI_NO_FLUSH));
    tail->is_due = *is_appended && (shared->flags & BODDURCI_NO_FLUSH) && tail->end.at - tail->applied >= DUE;
    if (*is_appended && !(shared->flags & BODDURCI_NO_FLUSH))
        tail->owed = tail->end.at;
    return status;
}

/* Saves by a plan, and flushes and applies it. */
static uint32_t save(boddurci_shared *shared, struct boddurci_bytes plan, boddurci_fault *fault)
{
    int is_left = 0;
    uint32_t status = boddurci_apply_tail(shared, fault);
    if (status != BODDURCI_DONE)
        return status;
    shared->notes.is_overtaken = 0;
    status = boddurci_logged_save(&shared->logged, plan, &is_left, fault);
    shared->tail.applied = shared->tail.end.at = shared->logged.next.end;
    if (status == BODDURCI_DONE && !is_left) {
        note_written(shared);
        note_record(shared, plan);
        (void)!leave_note(shared);
    }
    return status;
}

uint32_t boddurci_save_or_append(boddurci_shared *shared, size_t length, boddurci_fault *fault)
{
    struct boddurci_bytes plan = {shared->plan, BODDURCI_PLAN_AT + length, 0};
    uint32_t status = BODDURCI_DONE;
    int is_appended = 0;
    if (is_flushed_later(shared))
        status = append(shared, plan, &is_appended, fault);
    return status == BODDURCI_DONE && !is_appended ? save(shared, plan, fault) : status;
}

/* ---- flushing */

/* An end that no log has. */
static const size_t ALL_RECORDS = SIZE_MAX;

void boddurci_owe_tail(boddurci_shared *shared)
{
    struct boddurci_tail *tail = &shared->tail;
    int depends = tail->is_touched && boddurci_has_tail(tail) && tail->flushed < tail->end.at;
    if (depends && tail->owed == 0 && !(shared->flags & BODDURCI_NO_FLUSH))
        tail->owed = tail->end.at;
}

/* Writes how a flush of a log up to `end` has ended. A lock may be open for reading only, so the file is opened again if necessary. Preserves
 * errno. */
static void put_outcome(boddurci_shared *shared, uint64_t epoch, uint64_t end, int has_failed)
{
    boddurci_fault unsaid;
    struct boddurci_disk *disk = &shared->logged.disk;
    int system = errno, opened = -1, lock = boddurci_notes_of(&shared->place);
    boddurci_hold_signal(disk);
    int status = has_failed ? boddurci_put_failed(lock, epoch) : boddurci_put_flushed(lock, epoch, end);
    if (status != 0 && errno == EBADF && boddurci_open_beside(&shared->place, BODDURCI_LOCK, O_RDWR, &opened, &unsaid) == BODDURCI_DONE &&
        opened >= 0)
        status = has_failed ? boddurci_put_failed(opened, epoch) : boddurci_put_flushed(opened, epoch, end);
    disk->is_too_long = status != 0 && errno == EFBIG;
    boddurci_give_signal(disk);
    if (opened >= 0)
        close(opened);
    errno = system;
}

/* Returns whether the records of a log up to `end` are flushed, as its notes say. Sets the note, and *noted to its kind. */
static int is_flushed(const boddurci_shared *shared, int redo, uint64_t epoch, size_t end, enum boddurci_noted *noted,
                      struct boddurci_log_note *note)
{
    *noted = boddurci_look_at_note(redo, boddurci_notes_of(&shared->place), &shared->boot, note);
    return *noted == BODDURCI_NOTED && note->epoch == epoch && !note->has_failed && note->flushed >= end;
}

/* Flushes a log up to `end` or further, unless that is done, for a process that holds the lock of the redo file or has waited long for it. If
 * the end is unknown (ALL_RECORDS), it flushes in any case, but counts only the records that the note describes. If the log was
 * emptied or recovered meanwhile, all its former records are durable, unless a flush has failed, which this flush reports too. After a failed
 * flush the next call recovers the log, since a further flush might succeed without writing the lost bytes. */
static int flush_alone(boddurci_shared *shared, int redo, uint64_t epoch, size_t end)
{
    enum boddurci_noted noted;
    struct boddurci_log_note note;
    if (is_flushed(shared, redo, epoch, end, &noted, &note))
        return 0;
    int is_own = noted == BODDURCI_NOTED && note.epoch == epoch;
    if (is_own && note.has_failed) {
        errno = EIO;
        return -1;
    }
    int status = boddurci_keep_opened(redo);
    if (is_own)
        put_outcome(shared, epoch, end == ALL_RECORDS || note.log.end > end ? note.log.end : end, status != 0);
    return status;
}

/* Waits while another process flushes: until the records up to `end` are flushed, or this process has the lock of the redo file. At first it
 * polls, since a flush often takes less time than to wake a process. After half a second it flushes without the lock, since the other process
 * may be stopped. Sets *is_locked to 1 if it took the lock. Returns 1 if the records are flushed. */
static int wait_for_flush(const boddurci_shared *shared, int redo, uint64_t epoch, size_t end, int *is_locked)
{
    enum { POLLS = 400, MOST = 500 };
    static const struct timespec moment = {0, 500000};
    enum boddurci_noted noted;
    struct boddurci_log_note note;
    int64_t last = boddurci_now() + MOST;
    *is_locked = 0;
    for (int tries = 0; boddurci_now() < last; tries++) {
        *is_locked = flock(redo, LOCK_EX | LOCK_NB) == 0;
        if (*is_locked || errno != EWOULDBLOCK)
            return 0;
        if (tries < POLLS)
            sched_yield();
        else
            nanosleep(&moment, NULL);
        if (is_flushed(shared, redo, epoch, end, &noted, &note))
            return 1;
    }
    return 0;
}

uint32_t boddurci_flush_log(boddurci_shared *shared, int redo, uint64_t epoch, size_t end, boddurci_fault *fault)
{
    int is_locked;
    if (wait_for_flush(shared, redo, epoch, end, &is_locked))
        return boddurci_no_fault(fault);
    int status = flush_alone(shared, redo, epoch, end), system = errno;
    if (is_locked)
        flock(redo, LOCK_UN);
    errno = system;
    return status == 0 ? boddurci_no_fault(fault) : boddurci_fail_by_system(fault, "BASE.redo cannot be written");
}

void boddurci_flush_due(boddurci_shared *shared)
{
    struct boddurci_tail *tail = &shared->tail;
    int redo = shared->logged.disk.files[BODDURCI_REDO], is_due = tail->is_due && redo >= 0;
    tail->is_due = 0;
    if (!is_due || flock(redo, LOCK_EX | LOCK_NB) != 0)
        return;
    (void)!flush_alone(shared, redo, tail->epoch, tail->end.at);
    flock(redo, LOCK_UN);
}

uint32_t boddurci_flush_all(boddurci_shared *shared, boddurci_fault *fault)
{
    int redo;
    struct boddurci_log_note note;
    uint32_t status = boddurci_open_redo(shared, 0, &redo, fault);
    enum boddurci_noted noted = BODDURCI_UNMARKED;
    if (status == BODDURCI_DONE && redo >= 0)
        noted = boddurci_look_at_note(redo, boddurci_open_notes(&shared->place), &shared->boot, &note);
    int is_read = noted == BODDURCI_NOTED && boddurci_glance_at_tail(shared, redo, &note) == BODDURCI_DONE;
    if (noted == BODDURCI_NOTED)
        status = boddurci_flush_log(shared, redo, note.epoch, is_read ? shared->tail.end.at : ALL_RECORDS, fault);
    else if (noted == BODDURCI_UNKNOWN && boddurci_keep_opened(redo) != 0)
        status = boddurci_fail_by_system(fault, "BASE.redo cannot be written");
    if (status == BODDURCI_DONE)
        boddurci_try_to_apply(shared);
    return status;
}

uint32_t boddurci_flush_owed(boddurci_shared *shared, boddurci_fault *fault)
{
    struct boddurci_tail *tail = &shared->tail;
    int redo;
    size_t owed = tail->owed;
    tail->owed = 0;
    if (owed == 0)
        return BODDURCI_DONE;
    uint32_t status = boddurci_open_redo(shared, 0, &redo, fault);
    /* If the log was closed meanwhile, its file may be another one or missing. */
    if (status == BODDURCI_DONE && redo >= 0)
        status = boddurci_flush_log(shared, redo, tail->epoch, owed, fault);
    if (status == BODDURCI_DONE)
        boddurci_try_to_apply(shared);
    return status;
}
