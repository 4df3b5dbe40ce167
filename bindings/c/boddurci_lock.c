/* The locks of a base: flocks on BASE.lock and BASE.writer. boddurci_saves.h says what each protects. */
#define _GNU_SOURCE
#include "boddurci_saves.h"
#include <errno.h>
#include <fcntl.h>
#include <sched.h>
#include <stdlib.h>
#include <string.h>
#include <sys/file.h>
#include <sys/stat.h>
#include <time.h>
#include <unistd.h>

/* ---- time */

int64_t boddurci_now(void)
{
    struct timespec time;
    clock_gettime(CLOCK_MONOTONIC, &time);
    return (int64_t)time.tv_sec * 1000 + time.tv_nsec / 1000000;
}

/* Returns the time at which a wait ends, or -1 if the wait has no limit. */
static int64_t end_of(int64_t milliseconds)
{
    int64_t start = boddurci_now();
    return milliseconds < 0 ? -1 : milliseconds < INT64_MAX - start ? start + milliseconds : INT64_MAX;
}

/* Returns the time until which a wait that ends at `end` lets others go first. */
static int64_t last_of(int64_t end)
{
    enum { MOST = 40 };
    int64_t last = boddurci_now() + MOST;
    return end < 0 || last < end ? last : end;
}

/* Sleeps before the next try: before each of the first SHORT tries about as long as a short save takes, and later 1 to 5 milliseconds.
 * Fails with EWOULDBLOCK if the time to wait is over, and with EINTR after a signal. */
static int rest(int *tries, int64_t end)
{
    enum { SHORT = 50, MOMENT = 50000, MILLISECOND = 1000000, LONGEST = 5 };
    int more = *tries < SHORT ? 0 : *tries - SHORT + 1;
    int64_t left = end < 0 ? LONGEST : end - boddurci_now();
    if (left <= 0) {
        errno = EWOULDBLOCK;
        return -1;
    }
    struct timespec time = {0, more == 0 ? MOMENT : (more < LONGEST ? more : LONGEST) * MILLISECOND};
    *tries += *tries < SHORT + LONGEST;
    return nanosleep(&time, NULL);
}

/* ---- the files of the locks */

static int is_named(const struct boddurci_place *place, enum boddurci_file lock)
{
    return boddurci_leads_to(place, lock, place->inodes[lock]);
}

/* Returns whether .pag is missing or this process may write it. If not, the process makes no lock files. */
static int may_write(const struct boddurci_place *place)
{
    int opened = boddurci_open_at(place->folder, place->names[BODDURCI_PAGES], O_RDWR | O_NONBLOCK, 0);
    if (opened < 0)
        return errno == ENOENT;
    close(opened);
    return 1;
}

static uint32_t cannot_be_made(enum boddurci_file lock, boddurci_fault *fault)
{
    return boddurci_fail_by_system(fault, lock == BODDURCI_LOCK ? "BASE.lock cannot be made" : "BASE.writer cannot be made");
}

/* Makes the file of a lock, unless another process was faster. Every user who may use .pag may use the lock file. */
static uint32_t make_lock(struct boddurci_place *place, enum boddurci_file lock, boddurci_fault *fault)
{
    if (!may_write(place))
        return boddurci_fail_by_system(fault, "BASE.pag cannot be written");
    mode_t early = 07777, mode = boddurci_mode_of_pages(place, early);
    int made = boddurci_make(place, lock, mode & 0644);
    if (made < 0)
        return errno == EEXIST ? BODDURCI_DONE : cannot_be_made(lock, fault);
    if (boddurci_be_like_pages(place, lock, made) != 0) {
        cannot_be_made(lock, fault);
        unlinkat(place->folder, place->names[lock], 0);
        close(made);
        return fault->status;
    }
    place->opened[lock] = made;
    place->is_early[lock] = mode == early;
    return BODDURCI_DONE;
}

/* Notes the inode of a lock file that was opened. A lock that was opened while .pag was missing may have been accepted although other users may
 * write it. Its notes are not used then. */
static void note_opened(struct boddurci_place *place, enum boddurci_file lock)
{
    enum { MISSING = 07777 };
    struct stat found;
    int opened = place->opened[lock], is_private = boddurci_look_at(opened, &found) == 0 && (found.st_mode & (S_IWGRP | S_IWOTH)) == 0;
    place->inodes[lock] = boddurci_inode_of(opened);
    if (lock != BODDURCI_LOCK)
        return;
    place->has_safe_notes = is_private || boddurci_mode_of_pages(place, MISSING) != MISSING;
    place->is_checked = 0;
}

/* Opens the file of a lock, for writing if this user is allowed to. A writer makes a missing file; for a reader the lock stays closed. */
static uint32_t open_named(struct boddurci_place *place, enum boddurci_file lock, int reads, boddurci_fault *fault)
{
    enum { TRIES = 100 };
    uint32_t status = BODDURCI_DONE;
    boddurci_hold_forks();
    for (int tries = 0; tries < TRIES && status == BODDURCI_DONE && place->opened[lock] < 0; tries += reads ? TRIES : 1) {
        status = boddurci_open_beside(place, lock, O_RDWR, &place->opened[lock], fault);
        if (!reads && status == BODDURCI_DONE && place->opened[lock] < 0)
            status = make_lock(place, lock, fault);
    }
    boddurci_give_forks();
    if (place->opened[lock] >= 0)
        note_opened(place, lock);
    else if (!reads && status == BODDURCI_DONE)
        return boddurci_fail(fault, BODDURCI_MOVED, 0, "BASE.lock or BASE.writer comes and goes");
    return status;
}

/* Opens the file of a lock. If the file that is open has lost its name, opens the file that has the name now. OPEN_HERE if this thread holds
 * the lock. */
static uint32_t open_lock(struct boddurci_place *place, enum boddurci_file lock, int reads, boddurci_fault *fault)
{
    if (place->opened[lock] >= 0 && !is_named(place, lock))
        boddurci_close_lock(place, lock);
    uint32_t status = place->opened[lock] < 0 ? open_named(place, lock, reads, fault) : BODDURCI_DONE;
    if (status == BODDURCI_DONE && place->opened[lock] >= 0 && boddurci_has_it_here(place, lock))
        return boddurci_fail(fault, BODDURCI_OPEN_HERE, 0, boddurci_files_text(BODDURCI_OPEN_HERE));
    return status;
}

/* ---- announcements */

/* A change that waits for BASE.lock announces itself by a lock of another kind (F_OFD_SETLK) on the first byte of that file. A change that
 * has waited for long, and a fetch that waits, lock the second byte. Without these announcements a call might wait forever: the system
 * prefers readers, and processes that call again, to a process that waits. A new fetch lets a call that has locked the first byte go first,
 * and a new change lets a call that has locked the second byte go first. A save of an open base locks the first byte of BASE.writer while it
 * waits for BASE.lock, and new readers let it go first. The system releases these locks when the process ends. On a local file system they
 * are independent of flock. On other file systems calls do not announce themselves, since flock may lock the same bytes. */
enum { WAITS, STARVES, BYTES };

#ifdef F_OFD_SETLK
static int lock_bytes(int opened, int how, off_t first, off_t count)
{
    struct flock bytes = {.l_type = (short)how, .l_whence = SEEK_SET, .l_start = first, .l_len = count};
    return fcntl(opened, F_OFD_SETLK, &bytes);
}

/* Returns whether another open file has a lock on a byte that excludes a lock of this kind. */
static int is_locked(int opened, off_t byte, int how)
{
    struct flock bytes = {.l_type = (short)how, .l_whence = SEEK_SET, .l_start = byte, .l_len = 1};
    return fcntl(opened, F_OFD_GETLK, &bytes) == 0 && bytes.l_type != F_UNLCK;
}
#else
static int lock_bytes(int opened, int how, off_t first, off_t count)
{
    (void)opened, (void)how, (void)first, (void)count;
    return -1;
}

static int is_locked(int opened, off_t byte, int how)
{
    (void)opened, (void)byte, (void)how;
    return 0;
}
#endif

static int announce(const struct boddurci_place *place, int how, off_t byte)
{
    return place->is_local ? lock_bytes(place->opened[BODDURCI_LOCK], how, byte, 1) : -1;
}

static void announce_none(const struct boddurci_place *place)
{
    if (place->is_local)
        (void)!lock_bytes(place->opened[BODDURCI_LOCK], F_UNLCK, 0, BYTES);
}

static int is_announced(const struct boddurci_place *place, off_t byte)
{
    int lock = place->opened[BODDURCI_LOCK];
    return place->is_local && lock >= 0 && is_locked(lock, byte, byte == WAITS ? F_RDLCK : F_WRLCK);
}

/* ---- taking the locks */

/* Waits for a lock: without a limit in flock, with a limit by trying and sleeping alternately. */
static int wait_for(int lock, int how, int64_t end)
{
    if (end < 0)
        return flock(lock, how);
    for (int tries = 0;;) {
        if (flock(lock, how | LOCK_NB) == 0)
            return 0;
        if (errno != EWOULDBLOCK || rest(&tries, end) != 0)
            return -1;
    }
}

static int wait_through(int lock, int how)
{
    int status;
    do
        status = flock(lock, how);
    while (status != 0 && errno == EINTR);
    return status;
}

/* Sets the fault of a reader or writer that did not get its locks, by errno. */
static uint32_t not_taken(const struct boddurci_place *place, int reads, boddurci_fault *fault)
{
    if (errno == EWOULDBLOCK)
        return boddurci_fail_locked(place, reads, fault);
    if (errno == EINTR)
        return boddurci_fail(fault, BODDURCI_INTERRUPTED, 0, boddurci_files_text(BODDURCI_INTERRUPTED));
    return boddurci_fail_by_system(fault, reads ? "BASE.lock cannot be locked" : "BASE.lock or BASE.writer cannot be locked");
}

static uint32_t share_lock(struct boddurci_place *place, int64_t end, boddurci_fault *fault)
{
    for (;;) {
        uint32_t status = open_lock(place, BODDURCI_LOCK, 1, fault);
        if (status == BODDURCI_DONE && place->opened[BODDURCI_LOCK] < 0)
            return status;
        if (status == BODDURCI_DONE && wait_for(place->opened[BODDURCI_LOCK], LOCK_SH, end) != 0)
            status = not_taken(place, 1, fault);
        if (status != BODDURCI_DONE) {
            boddurci_close_lock(place, BODDURCI_LOCK);
            return status;
        }
        if (is_named(place, BODDURCI_LOCK)) {
            boddurci_note_held(place);
            return BODDURCI_DONE;
        }
    }
}

/* Returns whether another process holds a lock exclusively. Tries a shared lock, so that processes that check at the same time do not find
 * each other. */
static int is_busy(int lock)
{
    if (flock(lock, LOCK_SH | LOCK_NB) == 0) {
        flock(lock, LOCK_UN);
        return 0;
    }
    return errno == EWOULDBLOCK;
}

/* Opens BASE.writer for a reader that holds BASE.lock. Returns -1 if a lock is missing, or if BASE.writer is not accepted. Until
 * close_writer no other thread forks: the handler of forks does not know this file. */
static int open_writer(const struct boddurci_place *place)
{
    boddurci_fault unsaid;
    int opened = -1;
    boddurci_hold_forks();
    if (place->opened[BODDURCI_LOCK] >= 0)
        (void)!boddurci_open_beside(place, BODDURCI_WRITER, O_RDONLY, &opened, &unsaid);
    return opened;
}

static void close_writer(int writer)
{
    if (writer >= 0)
        close(writer);
    boddurci_give_forks();
}

int boddurci_has_writer(const struct boddurci_place *place)
{
    int writer = open_writer(place), has_writer = writer >= 0 && is_busy(writer);
    close_writer(writer);
    return has_writer;
}

/* Returns whether a save waits for the files. A save of this library has locked the first byte of BASE.writer then. A session of dbm only
 * holds BASE.writer shared. In the latter case it also returns 1 while another reader checks BASE.writer, which takes a short time. */
static int is_waited_for(const struct boddurci_place *place)
{
    int writer = open_writer(place), is_there = writer >= 0;
    int waits = is_there && place->is_local && is_locked(writer, WAITS, F_WRLCK);
    int has_writer = is_there && !waits && is_busy(writer);
    close_writer(writer);
    return waits || (is_there && !has_writer && boddurci_holder_of(place, BODDURCI_WRITER) != 0);
}

/* The system prefers readers to a waiting writer. So a reader that gets BASE.lock while a save waits releases the lock for a short time. A
 * reader does so for a limited time, since the writer may be stopped. */
uint32_t boddurci_take_shared(struct boddurci_place *place, int64_t milliseconds, boddurci_fault *fault)
{
    static const struct timespec moment = {0, 1000000};
    int64_t end = end_of(milliseconds);
    uint32_t status = share_lock(place, end, fault);
    int64_t last = last_of(end);
    while (status == BODDURCI_DONE && boddurci_now() < last && is_waited_for(place)) {
        boddurci_give_locks(place, 1);
        nanosleep(&moment, NULL);
        status = share_lock(place, end, fault);
    }
    return status;
}

enum outcome { TAKEN, IS_BUSY, TRY_AGAIN, HAS_FAILED };

/* Takes BASE.writer without waiting. The caller holds BASE.lock. On failure releases BASE.lock. */
static enum outcome lock_writer(struct boddurci_place *place, boddurci_fault *fault)
{
    int files = place->opened[BODDURCI_LOCK], writer = place->opened[BODDURCI_WRITER];
    enum outcome outcome = flock(writer, LOCK_EX | LOCK_NB) == 0 ? TAKEN : errno == EWOULDBLOCK ? IS_BUSY : HAS_FAILED;
    if (outcome == HAS_FAILED)
        not_taken(place, 0, fault);
    if (outcome == TAKEN)
        boddurci_look_at_names(place);
    if (outcome == TAKEN && (place->all.are_same || (is_named(place, BODDURCI_LOCK) && is_named(place, BODDURCI_WRITER))))
        return TAKEN;
    if (outcome == TAKEN)
        flock(writer, LOCK_UN);
    flock(files, LOCK_UN);
    return outcome == TAKEN ? TRY_AGAIN : outcome;
}

/* Takes BASE.lock, and then BASE.writer without waiting. On failure the place holds neither lock. */
static enum outcome lock_both(struct boddurci_place *place, int64_t end, boddurci_fault *fault)
{
    if (wait_for(place->opened[BODDURCI_LOCK], LOCK_EX, end) == 0)
        return lock_writer(place, fault);
    not_taken(place, 0, fault);
    return HAS_FAILED;
}

/* Like `lock_both`, but does not touch BASE.lock while BASE.writer is busy. If `is_only` is 1 (a wait of 0 milliseconds), takes BASE.lock
 * anyway: otherwise the single try could fail because another process is checking BASE.writer. */
static enum outcome try_both(struct boddurci_place *place, int64_t end, int is_only, boddurci_fault *fault)
{
    for (enum boddurci_file lock = BODDURCI_LOCK; lock <= BODDURCI_WRITER; lock++)
        if (open_lock(place, lock, 0, fault) != BODDURCI_DONE)
            return HAS_FAILED;
    if (!is_only && is_busy(place->opened[BODDURCI_WRITER]))
        return IS_BUSY;
    return lock_both(place, end, fault);
}

/* Records that this place holds both locks. Converts the lock on BASE.writer to a shared one, since the place holds BASE.lock
 * exclusively. */
static void note_both(struct boddurci_place *place)
{
    flock(place->opened[BODDURCI_WRITER], LOCK_SH);
    boddurci_note_held(place);
}

/* Takes both locks of a writer. */
static uint32_t take_both(struct boddurci_place *place, int64_t milliseconds, boddurci_fault *fault)
{
    int64_t end = end_of(milliseconds);
    enum outcome outcome = TRY_AGAIN;
    for (int tries = 0; outcome == TRY_AGAIN || outcome == IS_BUSY;) {
        outcome = try_both(place, end, milliseconds == 0, fault);
        if (outcome != IS_BUSY || rest(&tries, end) == 0)
            continue;
        not_taken(place, 0, fault);
        outcome = HAS_FAILED;
    }
    if (outcome == TAKEN) {
        note_both(place);
        return BODDURCI_DONE;
    }
    boddurci_close_lock(place, BODDURCI_LOCK);
    boddurci_close_lock(place, BODDURCI_WRITER);
    return fault->status;
}

/* ---- while a base is open */

/* Tries for a short time to get a lock exclusively, without sleeping, and at first without yielding the processor: a reader of few pages
 * ends before a thread could be woken. On a busy machine each yield may take milliseconds. On failure the place does not hold the lock, not
 * even shared. */
static int take_soon(int lock)
{
    enum { TRIES = 1000, QUICK = 100, MOST = 5 };
    int64_t last = boddurci_now() + MOST;
    for (int i = 0; i < TRIES && (i <= QUICK || boddurci_now() < last); i++) {
        if (flock(lock, LOCK_EX | LOCK_NB) == 0)
            return 0;
        if (i >= QUICK)
            sched_yield();
    }
    return -1;
}

int boddurci_take_files(struct boddurci_place *place)
{
    int files = place->opened[BODDURCI_LOCK], writer = place->opened[BODDURCI_WRITER];
    if (place->keeps_files)
        return 0;
    if (take_soon(files) == 0)
        return wait_through(writer, LOCK_SH);
    /* Shows new readers that a save waits (is_waited_for). Readers of dbm see only that BASE.writer is shared. */
    int is_shared = wait_through(writer, LOCK_SH) == 0;
    if (place->is_local)
        (void)!lock_bytes(writer, F_RDLCK, WAITS, 1);
    int is_taken = is_shared && wait_through(files, LOCK_EX) == 0, system = errno;
    if (place->is_local)
        (void)!lock_bytes(writer, F_UNLCK, WAITS, 1);
    errno = system;
    return is_taken ? 0 : -1;
}

int boddurci_share_files(struct boddurci_place *place)
{
    return place->keeps_files ? 0 : wait_through(place->opened[BODDURCI_LOCK], LOCK_SH);
}

/* Another process holds BASE.writer only while it checks that file, since a writer would also need BASE.lock. If a process is stopped
 * during its check, BASE.writer stays shared, and readers use the log until the next save. */
void boddurci_give_files(struct boddurci_place *place)
{
    boddurci_set_keeps_files(place, 0);
    if (take_soon(place->opened[BODDURCI_WRITER]) != 0)
        (void)!wait_through(place->opened[BODDURCI_WRITER], LOCK_SH);
    flock(place->opened[BODDURCI_LOCK], LOCK_UN);
}

void boddurci_keep_files(struct boddurci_place *place)
{
    boddurci_set_keeps_files(place, 1);
}

uint32_t boddurci_are_held(const struct boddurci_place *place, boddurci_fault *fault)
{
    if (place->opened[BODDURCI_LOCK] < 0 || !boddurci_leads_to(place, BODDURCI_LOCK, place->inodes[BODDURCI_LOCK]))
        return boddurci_fail(fault, BODDURCI_MOVED, 0, "BASE.lock is another file than is held, and nothing was written");
    if (place->opened[BODDURCI_WRITER] < 0 || !boddurci_leads_to(place, BODDURCI_WRITER, place->inodes[BODDURCI_WRITER]))
        return boddurci_fail(fault, BODDURCI_MOVED, 0, "BASE.writer is another file than is held, and nothing was written");
    return BODDURCI_DONE;
}

/* BASE.writer is released first, so that a process that gets BASE.lock finds it free. */
void boddurci_give_locks(struct boddurci_place *place, int is_own)
{
    boddurci_forget_held(place);
    for (enum boddurci_file lock = BODDURCI_WRITER; lock >= BODDURCI_LOCK; lock--) {
        if (is_own && place->opened[lock] >= 0)
            flock(place->opened[lock], LOCK_UN);
        boddurci_close_lock(place, lock);
    }
}

void boddurci_settle_locks(struct boddurci_place *place)
{
    for (enum boddurci_file lock = BODDURCI_LOCK; lock <= BODDURCI_WRITER; lock++)
        if (place->is_early[lock] && place->seen[BODDURCI_PAGES].is_there)
            place->is_early[lock] = boddurci_be_like_pages(place, lock, place->opened[lock]) != 0;
}

/* ---- entering */

/* Checks that the name still leads to the base that it led to before the wait. MOVED if not. */
static uint32_t leads_there(const char *base, boddurci_fault *fault)
{
    char *led;
    uint32_t status = boddurci_resolve(base, &led, fault);
    if (status == BODDURCI_DONE && led != NULL)
        status = boddurci_fail(fault, BODDURCI_MOVED, 0, "BASE.pag and BASE.dir became links to another base");
    free(led);
    return status;
}

/* Finds the place of a name, without a lock. Sets *led as boddurci_resolve does. */
static uint32_t find(struct boddurci_place *place, const char *name, char **led, boddurci_fault *fault)
{
    uint32_t status = boddurci_resolve(name, led, fault);
    if (status == BODDURCI_DONE)
        status = boddurci_place_of(place, *led != NULL ? *led : name, fault);
    if (status != BODDURCI_DONE)
        return status;
    place->is_local = boddurci_is_local(place->folder);
    boddurci_add_place(place);
    return status;
}

static uint32_t take(struct boddurci_place *place, int reads, int64_t milliseconds, boddurci_fault *fault)
{
    return reads ? boddurci_take_shared(place, milliseconds, fault) : take_both(place, milliseconds, fault);
}

uint32_t boddurci_enter(struct boddurci_place *place, const char *name, int reads, int64_t milliseconds, boddurci_fault *fault)
{
    char *led;
    uint32_t status = find(place, name, &led, fault);
    if (status == BODDURCI_DONE)
        status = take(place, reads, milliseconds, fault);
    if (status == BODDURCI_DONE)
        status = leads_there(led != NULL ? led : name, fault);
    free(led);
    return status;
}

uint32_t boddurci_enter_like(struct boddurci_place *place, const struct boddurci_place *like, int reads, int64_t milliseconds,
                             boddurci_fault *fault)
{
    uint32_t status = boddurci_place_like(place, like, fault);
    if (status != BODDURCI_DONE)
        return status;
    boddurci_add_place(place);
    return take(place, reads, milliseconds, fault);
}

/* ---- calls of a shared base */

uint32_t boddurci_find(struct boddurci_place *place, const char *name, boddurci_fault *fault)
{
    char *led;
    uint32_t status = find(place, name, &led, fault);
    free(led);
    return status;
}

/* Waits while another call has announced itself, so that the other call goes first. The wait is limited, since the process of the other
 * call may be stopped. */
static void let_go(struct boddurci_place *place, off_t byte, int64_t end)
{
    static const struct timespec moment = {0, 200000};
    if (!is_announced(place, byte))
        return;
    int64_t last = last_of(end);
    do {
        place->has_waited = 1;
        nanosleep(&moment, NULL);
    } while (boddurci_now() < last && is_announced(place, byte));
}

/* Returns whether the files of both locks are open. Once a call has locked these files, it checks that they still have their names. */
static int are_open(const struct boddurci_place *place)
{
    return place->opened[BODDURCI_LOCK] >= 0 && place->opened[BODDURCI_WRITER] >= 0;
}

/* Tries once to take both locks for a call. Unless `is_short` is 1, it first opens the lock files if they are closed or have lost their names,
 * and does not touch BASE.lock while BASE.writer is busy. Sets *is_queued to 1 if BASE.lock is busy. */
static enum outcome try_call(struct boddurci_place *place, int is_short, int *is_queued, boddurci_fault *fault)
{
    is_short = is_short && are_open(place);
    for (enum boddurci_file lock = BODDURCI_LOCK; lock <= BODDURCI_WRITER && !is_short; lock++)
        if (open_lock(place, lock, 0, fault) != BODDURCI_DONE)
            return HAS_FAILED;
    *is_queued = 0;
    if (!is_short && is_busy(place->opened[BODDURCI_WRITER])) {
        announce_none(place);
        return IS_BUSY;
    }
    if (flock(place->opened[BODDURCI_LOCK], LOCK_EX | LOCK_NB) == 0)
        return lock_writer(place, fault);
    *is_queued = errno == EWOULDBLOCK;
    if (*is_queued)
        return IS_BUSY;
    not_taken(place, 0, fault);
    return errno == EINTR ? TRY_AGAIN : HAS_FAILED;
}

/* Announces a call that waits for BASE.lock. One waiting call at a time spins for a while, since spinning takes less time than waking a
 * thread. A call that has waited for long locks the second byte too, so that new calls wait for it. After that it sleeps only shortly
 * between its tries. */
static enum outcome queue(struct boddurci_place *place, int *tries, int *spins, boddurci_fault *fault)
{
    enum { SPINS = 3, LONG = 20 };
    int is_next = announce(place, F_WRLCK, WAITS) == 0;
    if (is_next && *spins < SPINS) {
        ++*spins;
        if (take_soon(place->opened[BODDURCI_LOCK]) == 0)
            return lock_writer(place, fault);
    }
    if (*tries >= LONG && announce(place, F_WRLCK, STARVES) == 0)
        *tries = LONG;
    return IS_BUSY;
}

/* Takes both locks for a call. The wait continues after a signal. After a try that found BASE.lock busy the next try is short, except for one
 * in eight: a look at BASE.writer would disturb the next process that takes it. */
static uint32_t take_to_change(struct boddurci_place *place, int64_t end, boddurci_fault *fault)
{
    enum { SHORT = 7 };
    int tries = 0, spins = 0, shorts = 0, is_queued = 1;
    enum outcome outcome = TRY_AGAIN;
    while (outcome == TRY_AGAIN || outcome == IS_BUSY) {
        int is_short = is_queued && shorts < SHORT && (end < 0 || boddurci_now() < end);
        shorts = is_short ? shorts + 1 : 0;
        outcome = try_call(place, is_short, &is_queued, fault);
        place->has_waited = place->has_waited || outcome == IS_BUSY;
        if (outcome == IS_BUSY && is_queued && (end < 0 || boddurci_now() < end))
            outcome = queue(place, &tries, &spins, fault);
        if (outcome != IS_BUSY || rest(&tries, end) == 0 || errno == EINTR)
            continue;
        not_taken(place, 0, fault);
        outcome = HAS_FAILED;
    }
    if (place->opened[BODDURCI_LOCK] >= 0 && place->has_waited)
        announce_none(place);
    if (outcome == TAKEN) {
        note_both(place);
        return BODDURCI_DONE;
    }
    boddurci_drop_locks(place);
    return fault->status;
}

/* Takes BASE.lock shared if its file is open and nobody holds the lock exclusively. Returns 1 if it took the lock. */
static int share_open(struct boddurci_place *place)
{
    int lock = place->opened[BODDURCI_LOCK];
    if (lock < 0 || flock(lock, LOCK_SH | LOCK_NB) != 0)
        return 0;
    if (is_named(place, BODDURCI_LOCK)) {
        boddurci_note_held(place);
        return 1;
    }
    flock(lock, LOCK_UN);
    return 0;
}

uint32_t boddurci_take_call(struct boddurci_place *place, int reads, int64_t milliseconds, boddurci_fault *fault)
{
    int64_t end = end_of(milliseconds);
    uint32_t status = BODDURCI_INTERRUPTED;
    place->has_waited = place->all.are_same = 0;
    if (milliseconds != 0)
        let_go(place, reads ? WAITS : STARVES, end);
    if (!reads)
        return take_to_change(place, end, fault);
    if (share_open(place))
        return BODDURCI_DONE;
    if (place->opened[BODDURCI_LOCK] >= 0)
        (void)!announce(place, F_RDLCK, STARVES);
    while (status == BODDURCI_INTERRUPTED)
        status = share_lock(place, end, fault);
    if (place->opened[BODDURCI_LOCK] >= 0)
        announce_none(place);
    if (status == BODDURCI_DONE)
        boddurci_no_fault(fault);
    return status;
}

int boddurci_try_change(struct boddurci_place *place)
{
    enum { TRIES = 100 };
    boddurci_fault unsaid;
    enum outcome outcome = IS_BUSY;
    int is_queued;
    for (int tries = 0; tries < TRIES && outcome == IS_BUSY && are_open(place); tries++)
        outcome = try_call(place, 1, &is_queued, &unsaid);
    if (outcome == TAKEN)
        note_both(place);
    return outcome == TAKEN;
}

void boddurci_give_call(struct boddurci_place *place, int reads)
{
    place->all.are_same = 0;
    boddurci_forget_held(place);
    if (!reads)
        flock(place->opened[BODDURCI_WRITER], LOCK_UN);
    if (place->opened[BODDURCI_LOCK] >= 0)
        flock(place->opened[BODDURCI_LOCK], LOCK_UN);
}

void boddurci_drop_locks(struct boddurci_place *place)
{
    for (enum boddurci_file lock = BODDURCI_WRITER; lock >= BODDURCI_LOCK; lock--)
        boddurci_close_lock(place, lock);
}

int boddurci_notes_of(const struct boddurci_place *place)
{
    return place->opened[BODDURCI_LOCK] >= 0 && place->has_safe_notes ? place->opened[BODDURCI_LOCK] : -1;
}

int boddurci_open_notes(struct boddurci_place *place)
{
    boddurci_fault unsaid;
    if (place->opened[BODDURCI_LOCK] < 0)
        (void)!open_named(place, BODDURCI_LOCK, 1, &unsaid);
    return boddurci_notes_of(place);
}
