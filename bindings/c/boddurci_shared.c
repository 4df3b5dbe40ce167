/* Implements the calls of shared bases, which include/boddurci_files.h documents. */
#define _GNU_SOURCE
#include "boddurci_shared_base.h"
#include <errno.h>
#include <fcntl.h>
#include <pthread.h>
#include <stdlib.h>
#include <string.h>
#include <time.h>
#include <unistd.h>

enum { PAGE_FLAGS = BODDURCI_WIDE | BODDURCI_UNSIGNED_KEYS | BODDURCI_MUST_EXIST | BODDURCI_ANY_SIZE };
enum { FLAGS = PAGE_FLAGS | BODDURCI_NO_WAIT | BODDURCI_NO_FLUSH };
enum { PATIENCE = 5000, PLAN_ROOM = BODDURCI_TAIL_MOST + 8192 };

/* ---- time */

/* Returns the time at which a wait ends, or -1 if the wait has no limit. */
static int64_t end_of_wait(const boddurci_shared *shared)
{
    int64_t wait = __atomic_load_n(&shared->wait, __ATOMIC_RELAXED), start = boddurci_now();
    return wait < 0 ? -1 : wait < INT64_MAX - start ? start + wait : INT64_MAX;
}

static int64_t left_of(int64_t end)
{
    if (end < 0)
        return -1;
    int64_t left = end - boddurci_now();
    return left > 0 ? left : 0;
}

/* ---- forks. A child must close the redo file that it inherits, which serves as a lock during a flush. Otherwise it would hold the lock of a
 * call of its parent even after the parent was killed. boddurci_owner.c closes the files of the other locks. */

static boddurci_shared *all;
static pthread_mutex_t all_mutex = PTHREAD_MUTEX_INITIALIZER;
static pthread_once_t all_once = PTHREAD_ONCE_INIT;

static void take_all(void)
{
    pthread_mutex_lock(&all_mutex);
}

static void give_all(void)
{
    pthread_mutex_unlock(&all_mutex);
}

/* Forgets a descriptor, in a child, if another thread of the parent was in a call. That thread may have closed the file before the fork, and
 * another file may have its descriptor now. So the child may close a descriptor only if its file still has the name. */
static void forget_unnamed(const struct boddurci_place *place, enum boddurci_file file, int *opened)
{
    if (*opened >= 0 && !boddurci_is_named(place, file, *opened))
        *opened = -1;
}

/* Closes the redo file in a child. */
static void leave_redo(boddurci_shared *shared, int is_idle)
{
    if (!is_idle) {
        forget_unnamed(&shared->place, BODDURCI_REDO, &shared->logged.disk.files[BODDURCI_REDO]);
        forget_unnamed(&shared->place, BODDURCI_REDO, &shared->files[BODDURCI_REDO]);
    }
    boddurci_drop_redo(shared);
}

/* Makes the condition variable for the turn of a call. A child makes it again, since it may have waiters in its parent. */
static int make_turn(boddurci_shared *shared)
{
    pthread_condattr_t how;
    if (pthread_condattr_init(&how) != 0)
        return -1;
    int is_made = pthread_condattr_setclock(&how, CLOCK_MONOTONIC) == 0 && pthread_cond_init(&shared->turn, &how) == 0;
    pthread_condattr_destroy(&how);
    return is_made ? 0 : -1;
}

/* Prepares all shared bases for their use in a child. The next call opens the closed files again. If another thread of the parent was in a
 * call, the child cannot use the base. */
static void leave_calls(void)
{
    for (boddurci_shared *shared = all; shared != NULL; shared = shared->next) {
        int is_locked = pthread_mutex_trylock(&shared->mutex) == 0, is_idle = is_locked && !shared->is_busy && make_turn(shared) == 0;
        __atomic_store_n(&shared->process, is_idle && shared->process != 0 ? boddurci_note_process() : 0, __ATOMIC_RELAXED);
        leave_redo(shared, is_idle);
        if (is_locked)
            pthread_mutex_unlock(&shared->mutex);
    }
    pthread_mutex_unlock(&all_mutex);
}

static void guard_forks(void)
{
    pthread_atfork(take_all, give_all, leave_calls);
}

static void add(boddurci_shared *shared)
{
    pthread_once(&all_once, guard_forks);
    take_all();
    shared->next = all;
    all = shared;
    give_all();
}

static void forget(boddurci_shared *shared)
{
    take_all();
    for (boddurci_shared **at = &all; *at != NULL; at = &(*at)->next)
        if (*at == shared) {
            *at = shared->next;
            break;
        }
    give_all();
}

static int is_of_another(const boddurci_shared *shared)
{
    return __atomic_load_n(&shared->process, __ATOMIC_RELAXED) != boddurci_this_process();
}

/* ---- opening and closing */

static boddurci_shared *new_shared(uint32_t flags)
{
    boddurci_shared *shared = calloc(1, sizeof *shared);
    if (shared == NULL)
        return NULL;
    shared->flags = flags & FLAGS;
    shared->wait = flags & BODDURCI_NO_WAIT ? 0 : PATIENCE;
    shared->process = boddurci_note_process();
    boddurci_no_place(&shared->place);
    boddurci_logged_of(&shared->logged, &shared->place, &shared->notes);
    shared->logged.is_sharing = (flags & BODDURCI_NO_FLUSH) != 0;
    for (enum boddurci_file file = BODDURCI_PAGES; file <= BODDURCI_REDO; file++)
        shared->files[file] = -1;
    boddurci_boot_of_system(&shared->boot);
    shared->plan_room = PLAN_ROOM;
    shared->plan = malloc(BODDURCI_PLAN_AT + PLAN_ROOM);
    shared->directory = malloc(BODDURCI_SHORT_DIRECTORY);
    if (shared->plan != NULL && shared->directory != NULL && make_turn(shared) == 0) {
        if (pthread_mutex_init(&shared->mutex, NULL) == 0)
            return shared;
        pthread_cond_destroy(&shared->turn);
    }
    free(shared->plan);
    free(shared->directory);
    free(shared);
    return NULL;
}

/* Opens the handle on an empty database. Each call replaces it by the page of its key. */
static uint32_t open_handle(boddurci_shared *shared, boddurci_fault *fault)
{
    uint8_t text[40];
    size_t length;
    uint32_t wide = (shared->flags & BODDURCI_WIDE) != 0, is_unsigned = (shared->flags & BODDURCI_UNSIGNED_KEYS) != 0;
    uint32_t status = boddurci_open(&shared->db, BODDURCI_NO_BYTES, BODDURCI_NO_BYTES, wide, is_unsigned, text, sizeof text, &length);
    return status == BODDURCI_DONE ? status : boddurci_fail(fault, status, 0, boddurci_text(status));
}

/* Opens the whole database. A wait for its locks continues after a signal. */
static boddurci_base *open_whole(const boddurci_shared *shared, uint32_t flags, int64_t end, boddurci_fault *fault)
{
    boddurci_base *base;
    do
        base = boddurci_open_like(&shared->place, flags, left_of(end), fault);
    while (base == NULL && fault->status == BODDURCI_INTERRUPTED);
    return base;
}

/* Checks whether the files of a base with wide pages look like small pages: opens the whole database as a reader, and closes it. */
static uint32_t look_at_size(const boddurci_shared *shared, boddurci_fault *fault)
{
    if (!(shared->flags & BODDURCI_WIDE) || (shared->flags & BODDURCI_ANY_SIZE))
        return BODDURCI_DONE;
    uint32_t flags = (shared->flags & (PAGE_FLAGS | BODDURCI_NO_WAIT)) | BODDURCI_READ_ONLY;
    boddurci_base *base = open_whole(shared, flags, end_of_wait(shared), fault);
    boddurci_close_files(base);
    return base != NULL ? BODDURCI_DONE : fault->status;
}

/* Returns whether the redo file has its mark. */
static int has_marked(const boddurci_shared *shared)
{
    int redo;
    boddurci_fault unsaid;
    struct boddurci_log_note note;
    if (boddurci_open_beside(&shared->place, BODDURCI_REDO, O_RDONLY, &redo, &unsaid) != BODDURCI_DONE || redo < 0)
        return 0;
    int is_marked = boddurci_read_note(redo, -1, &shared->boot, &note) != BODDURCI_UNMARKED;
    close(redo);
    return is_marked;
}

/* Checks that the database exists. After a crash of the machine, .pag may be missing although a marked log has its bytes. In that case the
 * first call makes .pag. */
static uint32_t look_for_pages(boddurci_shared *shared, boddurci_fault *fault)
{
    int pages;
    uint32_t status = boddurci_open_to_read(&shared->place, BODDURCI_PAGES, 1, &pages, fault);
    if (pages >= 0)
        close(pages);
    boddurci_see_none(&shared->place);
    if (status == BODDURCI_FILE_FAILED && fault->system == ENOENT && has_marked(shared))
        return boddurci_no_fault(fault);
    return status;
}

static uint32_t open_place(boddurci_shared *shared, const char *name, boddurci_fault *fault)
{
    uint32_t status = boddurci_find(&shared->place, name, fault);
    if (status == BODDURCI_DONE && (shared->flags & BODDURCI_MUST_EXIST))
        status = look_for_pages(shared, fault);
    if (status == BODDURCI_DONE)
        status = look_at_size(shared, fault);
    if (status == BODDURCI_DONE)
        status = open_handle(shared, fault);
    if (status == BODDURCI_DONE)
        boddurci_read_ahead(shared);
    return status;
}

boddurci_shared *boddurci_open_shared(const char *name, uint32_t flags, boddurci_fault *fault)
{
    boddurci_fault unsaid;
    int could_be_cancelled = boddurci_hold_cancel();
    boddurci_shared *shared = new_shared(flags);
    fault = fault != NULL ? fault : &unsaid;
    boddurci_no_fault(fault);
    if (shared == NULL)
        boddurci_no_memory(fault);
    else {
        add(shared);
        if (open_place(shared, name != NULL ? name : "", fault) != BODDURCI_DONE) {
            boddurci_close_shared(shared);
            shared = NULL;
        }
    }
    boddurci_give_cancel(could_be_cancelled);
    return shared;
}

/* Applies the tail of the log if it is flushed. Flushes it first if a call of this handle has left a record in it. */
static void finish_tail(boddurci_shared *shared)
{
    boddurci_fault unsaid;
    if (shared->tail.is_later)
        (void)!boddurci_flush_all(shared, &unsaid);
    else
        boddurci_try_to_apply(shared);
}

/* In a child that was forked during a call of another thread, does not free the memory of the database. */
void boddurci_close_shared(boddurci_shared *shared)
{
    if (shared == NULL)
        return;
    int is_own = !is_of_another(shared), could_be_cancelled = boddurci_hold_cancel();
    if (is_own)
        finish_tail(shared);
    forget(shared);
    boddurci_give_locks(&shared->place, 0);
    boddurci_drop_files(shared);
    boddurci_place_close(&shared->place);
    if (is_own) {
        boddurci_close(&shared->db);
        pthread_mutex_destroy(&shared->mutex);
        pthread_cond_destroy(&shared->turn);
    }
    for (size_t i = 0; i < shared->program_count; i++)
        free(shared->programs[i].bytes);
    free(shared->programs);
    free(shared->directory);
    free(shared->plan);
    free(shared->tail.bytes);
    free(shared->ahead);
    free(shared);
    boddurci_give_cancel(could_be_cancelled);
}

uint32_t boddurci_shared_wait(boddurci_shared *shared, int64_t milliseconds)
{
    if (shared == NULL)
        return BODDURCI_IS_CLOSED;
    __atomic_store_n(&shared->wait, milliseconds, __ATOMIC_RELAXED);
    return BODDURCI_DONE;
}

/* ---- the turn of a call */

/* Waits for the turn until `end`. A condition variable can wait by a clock that nobody sets, unlike a mutex. */
static int take_turn(boddurci_shared *shared, int64_t end)
{
    int status = 0;
    const struct timespec time = {(time_t)(end / 1000 < INT32_MAX ? end / 1000 : INT32_MAX), (long)(end % 1000 * 1000000)};
    pthread_mutex_lock(&shared->mutex);
    while (shared->is_busy && status == 0)
        status = end < 0 ? pthread_cond_wait(&shared->turn, &shared->mutex) : pthread_cond_timedwait(&shared->turn, &shared->mutex, &time);
    status = shared->is_busy ? -1 : 0;
    shared->is_busy = 1;
    pthread_mutex_unlock(&shared->mutex);
    return status;
}

static void give_turn(boddurci_shared *shared)
{
    pthread_mutex_lock(&shared->mutex);
    shared->is_busy = 0;
    pthread_cond_signal(&shared->turn);
    pthread_mutex_unlock(&shared->mutex);
}

/* Takes the turn for a call. */
static uint32_t begin(boddurci_shared *shared, int64_t end, boddurci_fault *fault)
{
    boddurci_no_fault(fault);
    if (shared == NULL)
        return boddurci_fail(fault, BODDURCI_IS_CLOSED, 0, boddurci_text(BODDURCI_IS_CLOSED));
    if (is_of_another(shared))
        return boddurci_fail(fault, BODDURCI_FORKED, 0, boddurci_files_text(BODDURCI_FORKED));
    if (take_turn(shared, end) != 0)
        return boddurci_fail(fault, BODDURCI_LOCKED, 0, "another thread of this process uses the shared base");
    return BODDURCI_DONE;
}

/* ---- the whole database */

/* Submits all programs of the shared base to a newly opened database. The programs get the same numbers there. */
static uint32_t submit_all(const boddurci_shared *shared, boddurci *db)
{
    uint8_t text[1];
    uint32_t number, status = BODDURCI_DONE;
    size_t unit, length;
    for (size_t i = 0; status == BODDURCI_DONE && i < shared->program_count; i++) {
        const struct boddurci_program *program = &shared->programs[i];
        if (program->is_stock)
            status = boddurci_submit_stock(db, program->bytes, program->length, &number);
        else
            status = boddurci_submit(db, program->bytes, program->length, &number, &unit, text, sizeof text, &length);
    }
    return status;
}

/* Executes a command on the whole database, and saves the database if the command may have changed it. */
static uint32_t answer_whole(const boddurci_shared *shared, boddurci_base *base, struct boddurci_command *command, boddurci_fault *fault)
{
    boddurci *db = boddurci_take(base);
    uint32_t status = submit_all(shared, db);
    if (status == BODDURCI_DONE)
        status = boddurci_answer(db, command);
    boddurci_give(base);
    if (boddurci_may_change(command, status))
        return boddurci_save(base, fault);
    return status == BODDURCI_DONE ? status : boddurci_fail(fault, status, 0, boddurci_text(status));
}

/* Opens the whole database for a call and closes it again. The call is still one atomic step, since the open base keeps its locks. */
static uint32_t call_whole(const boddurci_shared *shared, struct boddurci_command *command, int64_t end, boddurci_fault *fault)
{
    uint32_t flags = (shared->flags & PAGE_FLAGS) | (command->kind == BODDURCI_FETCH ? BODDURCI_READ_ONLY : 0);
    boddurci_base *base = open_whole(shared, flags, end, fault);
    if (base == NULL)
        return fault->status;
    boddurci_no_fault(fault);
    uint32_t status = answer_whole(shared, base, command, fault);
    boddurci_close_files(base);
    return status;
}

/* ---- one call */

/* Flushes the records on which a reply depends, once the call has released its locks. Returns the status of the call, or of a failed
 * flush. */
static uint32_t flushed(boddurci_shared *shared, uint32_t status, boddurci_fault *fault)
{
    boddurci_fault second;
    if (boddurci_flush_owed(shared, &second) == BODDURCI_DONE)
        return status;
    *fault = second;
    return second.status;
}

/* Takes the locks, changes the page and releases the locks. */
static uint32_t change_locked(boddurci_shared *shared, struct boddurci_command *command, int64_t end, int *is_whole, boddurci_fault *fault)
{
    boddurci_hold_signal(&shared->logged.disk);
    uint32_t status = boddurci_take_call(&shared->place, 0, left_of(end), fault);
    int is_locked = status == BODDURCI_DONE;
    if (is_locked)
        status = boddurci_change_page(shared, command, is_whole, fault);
    if (is_locked)
        boddurci_give_call(&shared->place, 0);
    boddurci_give_signal(&shared->logged.disk);
    return status;
}

static uint32_t change(boddurci_shared *shared, struct boddurci_command *command, int64_t end, boddurci_fault *fault)
{
    int is_whole = 0;
    boddurci_work_ahead(shared, command);
    uint32_t status = change_locked(shared, command, end, &is_whole, fault);
    boddurci_flush_due(shared);
    return status == BODDURCI_DONE && is_whole ? call_whole(shared, command, end, fault) : flushed(shared, status, fault);
}

/* Recovers the log and fetches. If this user may not recover the log, or another process holds BASE.writer, fetches from the whole
 * database, as a reader: a reader needs only BASE.lock, and applies the log in memory. */
static uint32_t fetch_recovered(boddurci_shared *shared, struct boddurci_command *command, int64_t end, boddurci_fault *fault)
{
    uint32_t status = BODDURCI_LOCKED;
    if (boddurci_holder_of(&shared->place, BODDURCI_WRITER) == 0)
        status = change(shared, command, end, fault);
    if (status != BODDURCI_FILE_FAILED && status != BODDURCI_UNSAFE && status != BODDURCI_LOCKED)
        return status;
    boddurci_no_fault(fault);
    return call_whole(shared, command, end, fault);
}

/* The state of a fetch, which may have to be repeated. */
struct fetching {
    boddurci_shared *shared;
    struct boddurci_command *command;
    int64_t end;
    int must_recover, is_whole;
};

/* Takes BASE.lock for a fetch, if the file exists. A save that waits for BASE.lock goes first. After a signal the fetch no longer lets
 * saves go first: a wait that began again after each signal might never end. */
static uint32_t take_after_saves(struct boddurci_place *place, int64_t end, boddurci_fault *fault)
{
    uint32_t status = boddurci_take_shared(place, left_of(end), fault);
    if (status != BODDURCI_INTERRUPTED)
        return status;
    boddurci_no_fault(fault);
    return boddurci_take_call(place, 1, left_of(end), fault);
}

/* Fetches under BASE.lock, if that exists. If `yields` is 1, a save that waits for BASE.lock goes first. */
static uint32_t fetch_once(struct fetching *it, int yields, boddurci_fault *fault)
{
    struct boddurci_place *place = &it->shared->place;
    uint32_t status = yields ? take_after_saves(place, it->end, fault) : boddurci_take_call(place, 1, left_of(it->end), fault);
    if (status != BODDURCI_DONE)
        return status;
    status = boddurci_fetch_page(it->shared, it->command, &it->must_recover, &it->is_whole, fault);
    boddurci_give_call(place, 1);
    return status;
}

static int has_lock(const struct boddurci_place *place)
{
    return faccessat(place->folder, place->names[BODDURCI_LOCK], F_OK, 0) == 0;
}

/* Fetches. Repeats the fetch if BASE.lock was missing and exists now, since the first writer may have come meanwhile. Also repeats the
 * fetch if the log must be recovered: the log may belong to a service whose save waits for the files, and that save goes first. */
static uint32_t fetch(boddurci_shared *shared, struct boddurci_command *command, int64_t end, boddurci_fault *fault)
{
    struct fetching it = {shared, command, end, 0, 0};
    uint32_t status = fetch_once(&it, 0, fault);
    if (shared->place.opened[BODDURCI_LOCK] < 0 && status != BODDURCI_LOCKED && has_lock(&shared->place))
        status = fetch_once(&it, 0, fault);
    if (status == BODDURCI_DONE && it.must_recover)
        status = fetch_once(&it, 1, fault);
    if (status == BODDURCI_DONE && it.must_recover)
        return fetch_recovered(shared, command, end, fault);
    return status == BODDURCI_DONE && it.is_whole ? call_whole(shared, command, end, fault) : flushed(shared, status, fault);
}

/* Makes a call as one atomic step. It waits for its turn and the locks until `end`. */
static uint32_t call_until(boddurci_shared *shared, struct boddurci_command *command, int64_t end, boddurci_fault *fault)
{
    boddurci_fault unsaid;
    int could_be_cancelled = boddurci_hold_cancel();
    fault = fault != NULL ? fault : &unsaid;
    uint32_t status = begin(shared, end, fault);
    if (status == BODDURCI_DONE) {
        status = command->kind == BODDURCI_FETCH ? fetch(shared, command, end, fault) : change(shared, command, end, fault);
        give_turn(shared);
    }
    boddurci_give_cancel(could_be_cancelled);
    return status;
}

static uint32_t call(boddurci_shared *shared, struct boddurci_command *command, boddurci_fault *fault)
{
    return call_until(shared, command, shared != NULL ? end_of_wait(shared) : 0, fault);
}

uint32_t boddurci_shared_flush(boddurci_shared *shared, boddurci_fault *fault)
{
    boddurci_fault unsaid;
    int could_be_cancelled = boddurci_hold_cancel();
    fault = fault != NULL ? fault : &unsaid;
    uint32_t status = begin(shared, shared != NULL ? end_of_wait(shared) : 0, fault);
    if (status == BODDURCI_DONE) {
        status = boddurci_flush_all(shared, fault);
        give_turn(shared);
    }
    boddurci_give_cancel(could_be_cancelled);
    return status;
}

uint32_t boddurci_shared_fetch(boddurci_shared *shared, const uint8_t *key, size_t key_length, uint8_t *value, size_t value_room,
                               size_t *value_length, boddurci_fault *fault)
{
    struct boddurci_command command = {.kind = BODDURCI_FETCH, .key = key, .key_length = key_length};
    command.room = value;
    command.room_length = value_room;
    command.value_length = value_length;
    return call(shared, &command, fault);
}

uint32_t boddurci_shared_store(boddurci_shared *shared, const uint8_t *key, size_t key_length, const uint8_t *value, size_t value_length,
                               uint32_t replace, boddurci_fault *fault)
{
    struct boddurci_command command = {.kind = BODDURCI_STORE, .key = key, .key_length = key_length};
    command.bytes = value;
    command.length = value_length;
    command.replace = replace;
    return call(shared, &command, fault);
}

uint32_t boddurci_shared_delete(boddurci_shared *shared, const uint8_t *key, size_t key_length, boddurci_fault *fault)
{
    struct boddurci_command command = {.kind = BODDURCI_DELETE, .key = key, .key_length = key_length};
    return call(shared, &command, fault);
}

static uint32_t run_until(boddurci_shared *shared, struct boddurci_command *command, int64_t until, uint64_t *end, uint64_t *word,
                          boddurci_fault *fault)
{
    uint32_t status = call_until(shared, command, until, fault);
    if (status == BODDURCI_DONE || status == BODDURCI_MISSING || status == BODDURCI_CROWDED) {
        *end = command->end;
        *word = command->word;
    }
    return status;
}

uint32_t boddurci_shared_run(boddurci_shared *shared, uint32_t number, const uint8_t *key, size_t key_length, const uint8_t *arg,
                             size_t arg_length, uint32_t has_blank, size_t blank, uint64_t now, uint64_t *end, uint64_t *word,
                             boddurci_fault *fault)
{
    struct boddurci_command command = {.kind = BODDURCI_RUN, .key = key, .key_length = key_length, .bytes = arg, .length = arg_length};
    command.number = number;
    command.has_blank = has_blank;
    command.blank = blank;
    command.now = now;
    return run_until(shared, &command, shared != NULL ? end_of_wait(shared) : 0, end, word, fault);
}

uint32_t boddurci_shared_run_now(boddurci_shared *shared, uint32_t number, const uint8_t *key, size_t key_length, const uint8_t *arg,
                                 size_t arg_length, uint32_t has_blank, size_t blank, uint64_t per_second, uint64_t *end, uint64_t *word,
                                 boddurci_fault *fault)
{
    enum { MOST = 1000000000 };
    struct boddurci_command command = {.kind = BODDURCI_RUN, .key = key, .key_length = key_length, .bytes = arg, .length = arg_length};
    command.number = number;
    command.has_blank = has_blank;
    command.blank = blank;
    command.per_second = per_second == 0 ? 1 : per_second < MOST ? per_second : MOST;
    return run_until(shared, &command, shared != NULL ? end_of_wait(shared) : 0, end, word, fault);
}

/* ---- programs */

/* Makes room in the list of programs for one more. Returns a copy of the bytes of the new program, or NULL if allocation fails. */
static uint8_t *copy_program(boddurci_shared *shared, const uint8_t *bytes, size_t length)
{
    struct boddurci_program *programs = realloc(shared->programs, (shared->program_count + 1) * sizeof *programs);
    uint8_t *copy = programs != NULL ? malloc(length + 1) : NULL;
    shared->programs = programs != NULL ? programs : shared->programs;
    if (copy != NULL)
        memcpy(copy, bytes, length);
    return copy;
}

/* Adds the copy of a program to the list, for calls on the whole database, if the program got a new number. Otherwise frees the copy. */
static void keep_program(boddurci_shared *shared, uint32_t number, uint8_t *copy, size_t length, int is_stock)
{
    if (number != shared->program_count) {
        free(copy);
        return;
    }
    struct boddurci_program program = {copy, length, is_stock};
    shared->programs[shared->program_count++] = program;
}

uint32_t boddurci_shared_submit(boddurci_shared *shared, const uint8_t *image, size_t image_length, uint32_t *number, size_t *unit,
                                uint8_t *text, size_t text_room, size_t *text_length)
{
    boddurci_fault unsaid;
    int could_be_cancelled = boddurci_hold_cancel();
    uint32_t status = begin(shared, -1, &unsaid);
    if (status != BODDURCI_DONE) {
        boddurci_give_cancel(could_be_cancelled);
        return status;
    }
    size_t kept = image_length <= BODDURCI_IMAGE_MOST ? image_length : 0;
    uint8_t *copy = copy_program(shared, image, kept);
    status = BODDURCI_NO_MEMORY;
    if (copy != NULL)
        status = boddurci_submit(&shared->db, image, image_length, number, unit, text, text_room, text_length);
    else
        *unit = BODDURCI_NOWHERE;
    if (status == BODDURCI_DONE)
        keep_program(shared, *number, copy, kept, 0);
    else
        free(copy);
    give_turn(shared);
    boddurci_give_cancel(could_be_cancelled);
    return status;
}

/* Submits a stock program. Waits for the turn until `end`. */
static uint32_t stock_until(boddurci_shared *shared, const char *name, int64_t end, uint32_t *number, boddurci_fault *fault)
{
    int could_be_cancelled = boddurci_hold_cancel();
    uint32_t status = begin(shared, end, fault);
    if (status != BODDURCI_DONE) {
        boddurci_give_cancel(could_be_cancelled);
        return status;
    }
    size_t length = strlen(name);
    uint8_t *copy = copy_program(shared, (const uint8_t *)name, length);
    status = copy != NULL ? boddurci_submit_stock(&shared->db, (const uint8_t *)name, length, number) : BODDURCI_NO_MEMORY;
    if (status == BODDURCI_DONE)
        keep_program(shared, *number, copy, length, 1);
    else
        free(copy);
    give_turn(shared);
    boddurci_give_cancel(could_be_cancelled);
    return status == BODDURCI_DONE ? status : boddurci_fail(fault, status, 0, boddurci_text(status));
}

uint32_t boddurci_shared_stock(boddurci_shared *shared, const char *name, uint32_t *number)
{
    boddurci_fault unsaid;
    return stock_until(shared, name, -1, number, &unsaid);
}

uint32_t boddurci_shared_add(boddurci_shared *shared, const uint8_t *key, size_t key_length, int64_t amount, uint64_t least,
                             uint64_t greatest, uint64_t *end, uint64_t *number, boddurci_fault *fault)
{
    boddurci_fault unsaid;
    uint8_t argument[24];
    struct boddurci_command command = {.kind = BODDURCI_RUN, .key = key, .key_length = key_length, .has_blank = 1, .blank = 8};
    int64_t until = shared != NULL ? end_of_wait(shared) : 0;
    fault = fault != NULL ? fault : &unsaid;
    uint32_t status = stock_until(shared, "bounded_counter", until, &command.number, fault);
    if (status != BODDURCI_DONE)
        return status;
    boddurci_add_argument(amount, least, greatest, argument);
    command.bytes = argument;
    command.length = sizeof argument;
    return run_until(shared, &command, until, end, number, fault);
}
