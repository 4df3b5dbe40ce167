/* Declarations that the C files of this folder share: the place of a database, its locks and its log of saves. Programs that use the
 * library do not include this file. docs/DECISIONS.md gives the reasons under "Reading and writing files" and "Calls from C".
 *
 * A function that returns an int returns 0 on success, and -1 with errno on failure, unless its comment says otherwise. A function that
 * returns a status sets the fault too. */
#ifndef BODDURCI_SAVES_H
#define BODDURCI_SAVES_H
#include "boddurci_files.h"
#include "boddurci_logs.h"
#include <pthread.h>
#include <signal.h>
#include <stddef.h>
#include <stdint.h>
#include <sys/types.h>
#include <time.h>

#pragma GCC visibility push(hidden)

/* BASE.pag, .dir, .redo, .lock and .writer. The last two serve as locks; the first of them also has notes. */
enum boddurci_file { BODDURCI_PAGES, BODDURCI_DIRECTORY, BODDURCI_REDO, BODDURCI_LOCK, BODDURCI_WRITER, BODDURCI_FILES };

/* The bytes of a file: a mapping of `room` bytes, or memory from malloc if `room` is 0. `boddurci_let_go` frees the bytes. */
struct boddurci_bytes {
    uint8_t *at;
    size_t length;
    size_t room;
};

/* ---- cancellation */

/* Every call that opens or makes files, or takes locks, is between these two: a thread that was cancelled within would leave the files open,
 * and the locks taken until its process ends. `boddurci_hold_cancel` returns the state that `boddurci_give_cancel` restores. */
static inline int boddurci_hold_cancel(void)
{
    int was;
    pthread_setcancelstate(PTHREAD_CANCEL_DISABLE, &was);
    return was;
}

static inline void boddurci_give_cancel(int was)
{
    pthread_setcancelstate(was, NULL);
}

/* ---- boddurci_texts.c: the texts of faults */

/* Sets the fault and returns its status. `boddurci_no_fault` sets DONE, and `boddurci_no_memory` sets NO_MEMORY. */
uint32_t boddurci_fail(boddurci_fault *fault, uint32_t status, int system, const char *what);
uint32_t boddurci_no_fault(boddurci_fault *fault);
uint32_t boddurci_no_memory(boddurci_fault *fault);

/* Copies a name for the text of a fault. Escapes characters that could mislead a terminal or a reader, and truncates a long name. */
void boddurci_show_name(char *room, size_t size, const char *name);

/* Sets a fault by errno: NO_MEMORY for ENOMEM, MOVED for ESTALE (the name does not lead to the opened file), otherwise FILE_FAILED. */
uint32_t boddurci_fail_by_system(boddurci_fault *fault, const char *what);

/* ---- boddurci_bytes.c: the bytes of a file in memory */

/* Reads bytes of an open file from offset `at` on, with zeros past the end of the file. */
int boddurci_read_at(int opened, uint64_t at, uint8_t *room, size_t size);

/* Like `boddurci_read_at`, but fails instead of waiting for the disk if the bytes are not in the system's page cache. */
int boddurci_read_cached(int opened, uint64_t at, uint8_t *room, size_t size);

void boddurci_let_go(struct boddurci_bytes *bytes);

/* Changes the length of mapped bytes, with zeros as new bytes. */
int boddurci_set_length(struct boddurci_bytes *bytes, size_t length);

/* Reads the first `length` bytes of an open file into empty `bytes`. Holes of the file take no memory. */
int boddurci_read_bytes(int file, size_t length, struct boddurci_bytes *bytes);

/* Reads the first `length` bytes of an open file into memory from malloc, with holes as zeros. The next read reuses the memory from malloc,
 * which saves a page fault for each page. */
int boddurci_read_short(int file, size_t length, struct boddurci_bytes *bytes);

/* Returns whether the first `length` bytes of an open file contain any data, that is, are not one hole. */
int boddurci_has_data(int file, size_t length);

/* Reads the first `length` bytes of an open .pag in pieces, as pages of 8,192 bytes if `is_wide` is not 0, and of 1,024 otherwise. In
 * addition to the result, it needs memory for one piece. */
int boddurci_read_pages(int file, size_t length, uint32_t is_wide, boddurci_reading *pages);

/* Like `boddurci_read_pages`, but takes the bytes of a .pag from memory, and frees each part once it is read. */
int boddurci_move_pages(struct boddurci_bytes *bytes, uint32_t is_wide, boddurci_reading *pages);

/* Returns the greatest allowed length of a file, in bytes. */
size_t boddurci_most_bytes(enum boddurci_file file);

/* `boddurci_length_of` sets *length to the length of an open file, and `boddurci_read_all` reads the whole file. TOO_LONG if the file
 * exceeds its greatest allowed length. */
uint32_t boddurci_length_of(int opened, enum boddurci_file file, size_t *length, boddurci_fault *fault);
uint32_t boddurci_read_all(int opened, enum boddurci_file file, struct boddurci_bytes *bytes, boddurci_fault *fault);

/* ---- boddurci_place.c: the folder of a database, and its files */

/* The inode of an open file. It stays the same while the file is open. */
struct boddurci_inode {
    int is_known;
    dev_t device;
    ino_t number;
};

/* The file to which a name led when it was opened. The file stays open, since the system may give the inode of a removed file to a new one
 * once nobody has the removed file open. */
struct boddurci_seen {
    int is_there;
    int opened; /* valid if is_there is 1 */
    dev_t device;
    ino_t number;
};

/* What a shared base knows about the names of its files. Two looks at the names within one clock tick find the same files, if the folder's time
 * of change is the same and is clearly older than the tick. Later a mount may have replaced a file, which does not change that time. */
struct boddurci_names {
    int are_same;           /* in this call all names lead to the open files */
    struct timespec folder; /* the folder's time of change when this call took the locks */
    struct timespec looked; /* the coarse clock at the last call that looked at each name */
    struct timespec named;  /* the coarse clock when all names last led to the open files, or 0 */
    struct timespec then;   /* the folder's time of change at that look */
};

/* The place of a base: its folder and the names of its files. The folder stays open, so that the same files are used if the path changes.
 * `opened` and `is_early` are used for the locks only. */
struct boddurci_place {
    int folder;                   /* or -1 */
    char *names[BODDURCI_FILES];  /* of the files within the folder */
    struct boddurci_seen seen[2]; /* the data files, if they existed when they were last opened */
    int opened[BODDURCI_FILES];   /* the open file of a lock, or -1 */
    struct boddurci_inode inodes[BODDURCI_FILES]; /* of the open lock files */
    int has_safe_notes;           /* only users who may write .pag may write the open BASE.lock */
    int is_checked;               /* of a shared base: the notes in the open BASE.lock are right as long as the data files stay open */
    int is_early[BODDURCI_FILES]; /* this process made the lock file while .pag was missing */
    int keeps_files;              /* BASE.lock stays locked between the calls of the base */
    int is_local;                 /* the folder is on a local file system */
    struct boddurci_names all;    /* of a shared base */
    int has_waited;               /* the last change of a shared base had to wait for a lock, or for another call */
    struct boddurci_place *next;  /* in the list of all places with locks */
    unsigned long holder;         /* the thread that took the locks, by its number in this_thread; 0 if the place holds none */
    pid_t process;                /* the process of that thread */
};

/* Opens a file as openat does, with O_CLOEXEC and O_NOCTTY. The descriptor is never one of the standard streams. The library opens all its
 * files by this call. */
int boddurci_open_at(int folder, const char *name, int how, mode_t mode);

/* If both data files are symbolic links to those of another base, sets *led to the name of that base, so that all processes use the same
 * locks. Otherwise sets *led to NULL. The caller frees *led. BAD_NAME. */
uint32_t boddurci_resolve(const char *name, char **led, boddurci_fault *fault);

/* `boddurci_no_place` makes an empty place, `boddurci_place_of` sets the place of a base, and `boddurci_place_like` sets it to the folder and
 * the names of another place. `boddurci_place_close` closes it, except for its lock files. Close a place even if one of these two has failed. */
void boddurci_no_place(struct boddurci_place *place);
uint32_t boddurci_place_of(struct boddurci_place *place, const char *base, boddurci_fault *fault);
uint32_t boddurci_place_like(struct boddurci_place *place, const struct boddurci_place *like, boddurci_fault *fault);
void boddurci_place_close(struct boddurci_place *place);

/* Opens a data file. Fails with ESTALE if the seen file has lost its name, or if the name leads to another file. */
int boddurci_open_data(struct boddurci_place *place, enum boddurci_file file, int how);

/* `boddurci_see` records an open data file as the seen one, so that later calls accept no other file. `boddurci_see_none` forgets both
 * files. */
int boddurci_see(struct boddurci_place *place, enum boddurci_file file, int opened);
void boddurci_see_none(struct boddurci_place *place);

/* `boddurci_open_to_read` opens a data file for reading. If the file is missing, the call fails if the file must exist, and otherwise sets
 * *opened to -1. `boddurci_read_data` reads a whole data file; a missing file has no bytes. Both functions are in boddurci_bytes.c. */
uint32_t boddurci_open_to_read(struct boddurci_place *place, enum boddurci_file file, int must_exist, int *opened, boddurci_fault *fault);
uint32_t boddurci_read_data(struct boddurci_place *place, enum boddurci_file file, struct boddurci_bytes *bytes, boddurci_fault *fault);

/* Opens the redo file or a lock file. Sets *opened to -1 if the file is missing. UNSAFE if a user who may not write .pag could have made
 * the file. */
uint32_t boddurci_open_beside(const struct boddurci_place *place, enum boddurci_file file, int how, int *opened, boddurci_fault *fault);

/* Creates a file. Fails if the file exists. */
int boddurci_make(const struct boddurci_place *place, enum boddurci_file file, mode_t mode);

/* Gives an open file, which this process must have made, the owner, the group and the permissions of .pag, as far as the system allows. Does
 * nothing if .pag is missing. */
int boddurci_be_like_pages(const struct boddurci_place *place, enum boddurci_file file, int opened);

/* Returns whether an open file has the owner, the group and the permissions of .pag. */
int boddurci_is_like_pages(const struct boddurci_place *place, int opened);

/* `boddurci_look` gets the inode, kind, length, owner and permissions of the file under a name in a folder, and `boddurci_look_at` those of
 * an open file. Neither requests the times of the file: after such a request the system sets new times at the next write, and on some file
 * systems a sync then takes a second write. */
struct stat;
int boddurci_look(int folder, const char *name, int how, struct stat *found);
int boddurci_look_at(int opened, struct stat *found);

/* Gets the inode of an open file. If that fails, `is_known` is 0. */
struct boddurci_inode boddurci_inode_of(int opened);

/* `boddurci_is_named` returns whether the name of a file leads to the open file. `boddurci_leads_to` returns whether the name leads to this
 * inode, which must be known. */
int boddurci_is_named(const struct boddurci_place *place, enum boddurci_file file, int opened);
int boddurci_leads_to(const struct boddurci_place *place, enum boddurci_file file, struct boddurci_inode inode);

/* Returns the permissions of .pag, or `otherwise` if it is missing. */
mode_t boddurci_mode_of_pages(const struct boddurci_place *place, mode_t otherwise);

/* Syncs the folder, which makes the names of its files durable. */
int boddurci_keep_folder(const struct boddurci_place *place);

/* Syncs the bytes and the length of an open file. */
int boddurci_keep_opened(int opened);

/* ---- boddurci_lock.c: the locks of a base
 *
 * BASE.lock protects the files. A writer holds it exclusively while it opens the base, during each save and while it closes the base. A
 * reader holds it shared while it reads. BASE.writer protects the database: a writer holds it for as long as it has the base open. A writer
 * takes BASE.writer only while it holds BASE.lock, and releases BASE.lock once the files are recovered and read. So if a process holds
 * BASE.writer exclusively while a reader holds BASE.lock, the data files have the last save.
 *
 * While a writer holds BASE.lock exclusively, it holds BASE.writer shared. If it is killed then, the data files may contain half of a save,
 * and the system may release BASE.lock before BASE.writer. If a reader gets BASE.lock between these two releases, it must not assume that
 * the files are complete.
 *
 * A save shares BASE.lock with readers while it plans, appends its record and syncs the log, which takes most of its time. It writes no
 * data file meanwhile. It holds BASE.lock exclusively while it writes the data files, and while it opens or empties the log. If a save
 * excluded readers from its beginning to its end, a reader that polls would hardly ever find BASE.lock free while a service saves without a
 * pause. */

/* Sets the place of the base with this name and takes its locks. A writer takes both locks. A reader takes only BASE.lock, or no lock if
 * BASE.lock is missing. If `milliseconds` is negative, waits without a limit; if it is 0, tries once. Close the place even if the call
 * fails. `boddurci_enter_like` does the same with the folder and the names of another place. */
uint32_t boddurci_enter(struct boddurci_place *place, const char *name, int reads, int64_t milliseconds, boddurci_fault *fault);
uint32_t boddurci_enter_like(struct boddurci_place *place, const struct boddurci_place *like, int reads, int64_t milliseconds,
                             boddurci_fault *fault);

/* Returns the present time in milliseconds. It is not that of the day, which may be set. */
int64_t boddurci_now(void);

/* Takes BASE.lock, if the file exists by now, for a reader that holds no lock. OPEN_HERE if this thread already holds BASE.lock, since it
 * would wait for itself. */
uint32_t boddurci_take_shared(struct boddurci_place *place, int64_t milliseconds, boddurci_fault *fault);

/* Returns whether another process, or another base of this process, has the database open for writing. The caller holds BASE.lock. */
int boddurci_has_writer(const struct boddurci_place *place);

/* The next four calls are for an open writer. `boddurci_take_files` takes BASE.lock exclusively, and `boddurci_share_files` takes it
 * shared. Both calls wait without a limit, convert a lock that the other call took, and do nothing if the place keeps the lock.
 * `boddurci_give_files` releases BASE.lock. `boddurci_keep_files` keeps it until the next `boddurci_give_files`. */
int boddurci_take_files(struct boddurci_place *place);
int boddurci_share_files(struct boddurci_place *place);
void boddurci_give_files(struct boddurci_place *place);
void boddurci_keep_files(struct boddurci_place *place);

/* Checks that the names of both locks of a writer still lead to the locked files. MOVED if not. */
uint32_t boddurci_are_held(const struct boddurci_place *place, boddurci_fault *fault);

/* Releases both locks if `is_own` is 1. Otherwise only closes the lock files: a forked child must not release the locks of its parent. */
void boddurci_give_locks(struct boddurci_place *place, int is_own);

/* Gives a lock file that was made before .pag the owner, the group and the permissions of .pag, once .pag exists. */
void boddurci_settle_locks(struct boddurci_place *place);

/* The next five calls are for a shared base, which holds locks only during a call. `boddurci_find` sets the place of a name without taking
 * a lock. `boddurci_take_call` takes the locks for a call: both locks for a change, and only BASE.lock, if it exists, for a fetch. Its wait
 * continues after a signal. `boddurci_try_change` takes both locks if their files are open and both are free, and returns 1 if it took them. It
 * tries for about as long as a fetch holds a lock.
 * `boddurci_give_call` releases the locks and leaves the lock files open. `boddurci_drop_locks` closes the lock files. */
uint32_t boddurci_find(struct boddurci_place *place, const char *name, boddurci_fault *fault);
uint32_t boddurci_take_call(struct boddurci_place *place, int reads, int64_t milliseconds, boddurci_fault *fault);
int boddurci_try_change(struct boddurci_place *place);
void boddurci_give_call(struct boddurci_place *place, int reads);
void boddurci_drop_locks(struct boddurci_place *place);

/* `boddurci_notes_of` returns the open BASE.lock, which has the notes, or -1 if it is closed or other users might have written it.
 * `boddurci_open_notes` opens it first, if it exists and is closed. */
int boddurci_notes_of(const struct boddurci_place *place);
int boddurci_open_notes(struct boddurci_place *place);

/* ---- boddurci_holder.c: the process that holds a lock */

/* Returns the process that holds a lock, exclusively or shared. Returns -1 if this process cannot see the holder, and 0 if there is no
 * holder or the system does not report it. */
long boddurci_holder_of(const struct boddurci_place *place, enum boddurci_file lock);

/* Sets the fault LOCKED. Its text names the process that holds the lock, if the system reports it. */
uint32_t boddurci_fail_locked(const struct boddurci_place *place, int reads, boddurci_fault *fault);

/* ---- boddurci_disk.c: the three files, open for writing */

/* The data files and the redo file. A data file is opened, or made if it is missing, at its first sync or write, and then stays open. A
 * missing redo file is made at its first write; boddurci_log.c opens an existing redo file. */
struct boddurci_disk {
    struct boddurci_place *place;
    int files[3];            /* -1 if closed */
    int is_folder_synced;    /* no file was made, removed or closed since the last sync of the folder */
    enum boddurci_file last; /* the file of the last call */
    sigset_t mask;           /* the thread's earlier signal mask */
    int is_signal_held;      /* the mask was changed */
    int was_signalled;       /* the signal was pending before the mask was changed */
    int is_too_long;         /* a call failed with EFBIG after the mask was changed, and may have raised the signal */
    int has_reserved;        /* a save has allocated blocks of a data file, which may change its times */
    int has_made_redo;       /* this process made the open redo file */
    int keeps_room;          /* blocks past the ends of the data files belong to saves that are committed and not applied yet */
    uint64_t most;           /* the process's limit on the length of a file (RLIMIT_FSIZE), at the last boddurci_hold_signal */
    struct boddurci_inode redo; /* of the open redo file, once boddurci_disk_redo has read it */
};

/* `boddurci_disk_of` initializes the files of a place as closed, `boddurci_disk_drop` closes one, and `boddurci_disk_close` closes all. */
void boddurci_disk_of(struct boddurci_disk *disk, struct boddurci_place *place);
void boddurci_disk_drop(struct boddurci_disk *disk, enum boddurci_file file);
void boddurci_disk_close(struct boddurci_disk *disk);

/* Returns the inode of the open redo file. */
struct boddurci_inode boddurci_disk_redo(struct boddurci_disk *disk);

/* `boddurci_hold_signal` reads the process's limit on the length of a file. If there is a limit, it blocks SIGXFSZ for this thread, so that a
 * write past the limit fails with EFBIG. `boddurci_give_signal` discards the signal if writes of this thread raised it, and restores the
 * mask. Saves happen between these two calls. */
void boddurci_hold_signal(struct boddurci_disk *disk);
void boddurci_give_signal(struct boddurci_disk *disk);

/* These calls write bytes, write zeros, set the length, and sync a file and the names of all files. If a data file is missing, its sync
 * syncs only the names. A sync fails if this user may not write the data file. */
int boddurci_disk_write(struct boddurci_disk *disk, enum boddurci_file file, uint64_t at, const uint8_t *bytes, size_t size);
int boddurci_disk_zero(struct boddurci_disk *disk, enum boddurci_file file, uint64_t at, uint64_t size);
int boddurci_disk_resize(struct boddurci_disk *disk, enum boddurci_file file, uint64_t length);
int boddurci_disk_sync(struct boddurci_disk *disk, enum boddurci_file file);

/* `boddurci_disk_find` opens a file if it exists and is closed. `boddurci_disk_length` also sets *length to its length, or to 0 if it is
 * missing. */
int boddurci_disk_find(struct boddurci_disk *disk, enum boddurci_file file);
int boddurci_disk_length(struct boddurci_disk *disk, enum boddurci_file file, uint64_t *length);

/* Closes and removes the redo file, if it exists. */
int boddurci_disk_remove_redo(struct boddurci_disk *disk);

/* `boddurci_disk_reserve` allocates the blocks of a range of an open file without changing its bytes and its length. Returns 1 if the file
 * system cannot do that. `boddurci_disk_trim` frees the blocks past `length`, which is the present length of the file. */
int boddurci_disk_reserve(struct boddurci_disk *disk, enum boddurci_file file, uint64_t at, uint64_t size);
int boddurci_disk_trim(struct boddurci_disk *disk, enum boddurci_file file, uint64_t length);

/* ---- boddurci_steps.c: executes steps */

/* Steps, and the bytes that they write. */
struct boddurci_steps {
    boddurci_step *at;
    size_t count;
    size_t committed;     /* of a save: the number of steps that commit it */
    const uint8_t *bytes;
    size_t length;        /* of `bytes` */
    uint8_t *own;         /* the bytes, if they are freed with the steps */
};

/* Executes steps on the files, in order, and stops at the first step that fails. */
int boddurci_do_steps(struct boddurci_disk *disk, const boddurci_step *steps, size_t count, const uint8_t *bytes);

/* Executes the steps on the data files, on mapped copies of these files. */
int boddurci_do_in_memory(struct boddurci_bytes files[2], const struct boddurci_steps *steps);

/* `boddurci_is_within_limits` returns whether the steps leave the data files within their greatest lengths. `boddurci_may_write` fails with
 * EFBIG if the process's limit on the length of a file forbids a step. */
int boddurci_is_within_limits(const struct boddurci_steps *steps);
int boddurci_may_write(struct boddurci_disk *disk, const struct boddurci_steps *steps);

/* Reads a number of a plan: four bytes, the lowest first. */
uint64_t boddurci_number_at(const uint8_t *at);

/* A change of a plan, without its bytes. */
struct boddurci_plan_change {
    enum boddurci_file file;
    uint64_t at;
    size_t length;
};

/* The changes of a plan begin at this byte of the plan. */
enum { BODDURCI_COUNT_AT = 24, BODDURCI_CHANGES_AT = 28 };

/* Reads the change at *at, and moves *at to the next change. Returns 0 at the end of the plan. boddurci.h has the form of a plan. */
int boddurci_next_change(const uint8_t **at, const uint8_t *end, struct boddurci_plan_change *change);

int boddurci_is_zero(const uint8_t *bytes, size_t size);

/* Reads from a plan the lengths of both data files before the plan, or after the plan if `is_after` is 1. The plan starts at
 * bytes[BODDURCI_PLAN_AT]. */
void boddurci_lengths_of(const uint8_t *bytes, int is_after, uint64_t lengths[2]);

/* `boddurci_take_room` ensures, before a save is committed, that the steps after the commit will find room on the disk. It allocates the
 * blocks of the data files. If it cannot allocate some blocks, it tests with the redo file whether the disk has room for these.
 * `boddurci_release_room` frees the blocks past the ends of the data files, unless they are kept, and preserves errno. */
int boddurci_take_room(struct boddurci_disk *disk, const struct boddurci_steps *steps);
void boddurci_release_room(struct boddurci_disk *disk);

/* Returns whether a plan only overwrites bytes that are not all zeros: it changes no length, and writes no hole. */
int boddurci_needs_no_room(const struct boddurci_disk *disk, struct boddurci_bytes plan);

/* ---- boddurci_log.c: the log of a base */

struct boddurci_notes;

/* The log of a base that is open for writing. */
struct boddurci_logged {
    struct boddurci_disk disk;
    struct boddurci_notes *notes;
    struct boddurci_group *group; /* the threads that share saves, or NULL */
    boddurci_log next;            /* the place of the next record; valid if is_open */
    uint64_t epoch;               /* of the notes of a shared base, while they are valid; otherwise 0 */
    int64_t emptied;              /* when the log was last empty, in milliseconds */
    int is_open;
    int is_grown;                 /* the log has more room than usual, or an attempt to get more failed */
    int is_sharing;               /* several records may be unflushed, which the header of a log says before it gets a record */
    int is_doubtful;              /* a call on the redo file failed, and the file could not be removed: make a new one if it has no mark */
    int is_given_up;              /* a call failed, and the files have not been recovered since: they may lack a save, or have half of it */
};

void boddurci_logged_of(struct boddurci_logged *logged, struct boddurci_place *place, struct boddurci_notes *notes);

/* If the log is closed and the redo file has its mark, recovers the data files, and opens the log if there is room for it. But if the note
 * of a shared base says that all records are applied, only closes the log. Sets *is_ended to 1 if it has recovered the data files, and to 0
 * otherwise. An open log counts as closed if the redo file has lost its name. The caller sets `are_names_same` to 1 if it knows that all
 * files still have their names. */
uint32_t boddurci_logged_recover(struct boddurci_logged *logged, int are_names_same, int *is_ended, boddurci_fault *fault);

/* Saves by a plan, which starts at byte BODDURCI_PLAN_AT of `bytes`. Opens the log first if it is closed. After a fault nothing has
 * changed, except that the save may be committed if BASE.redo itself failed: the next save or opening finds out. If a step after the commit
 * fails, the status is DONE, *is_left is 1 and the fault says what failed. */
uint32_t boddurci_logged_save(struct boddurci_logged *logged, struct boddurci_bytes bytes, int *is_left, boddurci_fault *fault);

/* `boddurci_logged_mark` marks the redo file, if it has no mark and .pag exists, by the record of a plan that changes nothing. Older
 * versions, which know only BASE.lock, write nothing while it is marked. `boddurci_logged_is_marked` returns whether the redo file has its
 * mark. */
uint32_t boddurci_logged_mark(struct boddurci_logged *logged, boddurci_fault *fault);
int boddurci_logged_is_marked(const struct boddurci_logged *logged);

/* Closes the log. The next save opens it again. All records must be applied. */
uint32_t boddurci_logged_renew(struct boddurci_logged *logged, boddurci_fault *fault);

/* Opens the log, with the declaration in its header that several of its records may be unflushed. If the log is open and lacks this
 * declaration, closes it first. */
uint32_t boddurci_logged_share(struct boddurci_logged *logged, boddurci_fault *fault);

/* The next three calls are for a shared log that is open and has records. `boddurci_logged_append` appends the record of a plan without a
 * sync, and does not apply it. If that is not possible, it does nothing and sets *is_appended to 0. `boddurci_logged_flush` syncs the log.
 * `boddurci_logged_apply` writes the changes of a plan to the data files, once all records are flushed. If one of the last two calls fails,
 * the next call recovers the log. A plan starts at byte BODDURCI_PLAN_AT of `bytes`. */
uint32_t boddurci_logged_append(struct boddurci_logged *logged, struct boddurci_bytes bytes, int *is_appended, boddurci_fault *fault);
uint32_t boddurci_logged_flush(struct boddurci_logged *logged, boddurci_fault *fault);
uint32_t boddurci_logged_apply(struct boddurci_logged *logged, struct boddurci_bytes bytes, boddurci_fault *fault);

/* Closes the log and the files. If a step fails, the next opening recovers the base. If a lock has lost its name, executes no step. */
void boddurci_logged_end(struct boddurci_logged *logged);

/* Sets *is_marked to whether the redo file has its mark and records that may not be in the data files. If so, reads both data files and
 * applies the saves in memory. Free the bytes even if the call fails. */
uint32_t boddurci_read_marked(struct boddurci_place *place, int *is_marked, struct boddurci_bytes files[2], boddurci_fault *fault);

/* ---- boddurci_notes.c: the recorded state of the data files. A save compares it with the files to notice changes made by other programs. */

/* The state of a data file. */
struct boddurci_note {
    int is_there;
    dev_t device;
    ino_t number;
    off_t length;
    struct timespec written, changed;
};

struct boddurci_notes {
    struct boddurci_note files[2];
    struct timespec tick;   /* the coarse clock when the times were last read */
    struct timespec latest; /* when the base last wrote within that tick; 0 if it did not */
    struct timespec named;  /* the coarse clock when a save last looked at all names in the folder */
    struct timespec folder; /* the folder's time of change at that look, if a later change of a name must set another time; otherwise 0 */
    int is_local;           /* this system sets the times of the files, while it writes them */
    int has_our_clock;      /* this system sets them by the clock that this process reads */
    int is_quick;           /* the look before this save read no times, and copied the noted times */
    int is_overtaken;       /* another program wrote the files while this save was committed */
};

/* How the data files differ from the notes. A greater value is a greater difference. */
enum boddurci_change {
    BODDURCI_SAME,
    BODDURCI_TOUCHED, /* a time differs, as after chmod or a new link, or is set by a server; or an empty file was made */
    BODDURCI_WRITTEN, /* the time of the last write differs */
    BODDURCI_OTHERS   /* a length differs, or the name leads to another file */
};

/* Returns whether an open file is on a local file system: this system then sets its times itself, while it writes the file. A server sets
 * the times of its files itself, perhaps only after this process has read these times. */
int boddurci_is_local(int opened);

/* `boddurci_note_opened` records the state of the files under the names, before they are read. `boddurci_note_system` then records whether
 * the folder and the open files are on local file systems. */
void boddurci_note_opened(struct boddurci_notes *notes, const struct boddurci_disk *disk);
void boddurci_note_system(struct boddurci_notes *notes, const struct boddurci_place *place);

/* Reads the coarse clock, which ticks every few milliseconds, and compares two times. The system sets the times of files by that clock. */
struct timespec boddurci_tick(void);
int boddurci_is_same_time(struct timespec one, struct timespec other);

/* Gets the folder's time of change, which changes with each new, removed or renamed name in it. Returns 0 if it is unknown. */
struct timespec boddurci_time_of_folder(const struct boddurci_place *place);

/* Records the names after a save has looked at all of them. `folder` is the folder's time of change before that look, and `found` the state
 * of the data files that it found. */
void boddurci_note_names(struct boddurci_notes *notes, const struct boddurci_place *place, struct timespec folder,
                         const struct boddurci_note found[2]);

/* Returns whether, by the folder's time of change, all names still lead to the files of the last look at the names. It returns 0 after the
 * clock tick of that look: later a mount may have replaced a file, and a mount does not change the time of the folder. */
int boddurci_are_names_same(const struct boddurci_notes *notes, const struct boddurci_place *place);

/* The same for a call of a shared base. `boddurci_note_all_names` records that this call has looked at each name, and that all names lead to
 * the open files; it does so from the second such call within a clock tick on, since it takes two more looks. `boddurci_look_at_names` finds out
 * whether an earlier call within the same tick has recorded this, and no name has changed since. */
void boddurci_look_at_names(struct boddurci_place *place);
void boddurci_note_all_names(struct boddurci_place *place, const struct boddurci_note found[2]);

/* Reads the state of the files under their names before a save. Returns how the files differ from the notes, and sets *which to the file
 * that differs. If no file differs, notes the state that was read. Within the clock tick of the last look the call may be quick: then it
 * reads no times, and looks at the open files if the names are the same. */
enum boddurci_change boddurci_look_before(struct boddurci_notes *notes, const struct boddurci_disk *disk, int may_be_quick, int are_names_same,
                                          struct boddurci_note found[2], enum boddurci_file *which);

/* Reads the state of the open files again, and returns how that state differs from `found`. After a quick look returns SAME without reading
 * anything: a write within the clock tick of a save may remain unnoticed, and the save sets the lengths itself. */
enum boddurci_change boddurci_look_again(const struct boddurci_notes *notes, const struct boddurci_disk *disk,
                                         const struct boddurci_note found[2], enum boddurci_file *which);

/* Looks for changes after a save is committed, before it writes the data files. Does nothing within the clock tick of the last look, or if
 * the save has allocated blocks. */
void boddurci_look_meanwhile(struct boddurci_notes *notes, const struct boddurci_disk *disk);

/* `boddurci_note_found` notes the files of the last look, and `boddurci_note_written` the files that the base has written.
 * `boddurci_note_saved` notes the files after a save that left these lengths; within the clock tick of the last look it notes only the
 * lengths. */
void boddurci_note_found(struct boddurci_notes *notes, const struct boddurci_note found[2]);
void boddurci_note_written(struct boddurci_notes *notes, const struct boddurci_disk *disk);
void boddurci_note_saved(struct boddurci_notes *notes, const struct boddurci_disk *disk, const uint64_t lengths[2]);

/* ---- boddurci_owner.c: the process of a base */

/* Both functions return the number of this process. Call `boddurci_note_process` when a base is opened. After that `boddurci_this_process`
 * makes no system call, except in a child process. */
pid_t boddurci_note_process(void);
pid_t boddurci_this_process(void);

/* `boddurci_add_place` adds a place to the list of all places with locks, and `boddurci_forget_place` removes it, if it is there. In a child the
 * lock files of all listed places are closed. */
void boddurci_add_place(struct boddurci_place *place);
void boddurci_forget_place(struct boddurci_place *place);

/* Forks wait while a thread is between the first two calls. Open a lock file only there, and close it by the third call. */
void boddurci_hold_forks(void);
void boddurci_give_forks(void);
void boddurci_close_lock(struct boddurci_place *place, enum boddurci_file lock);

/* `boddurci_note_held` records that this thread has taken the locks of a place, and `boddurci_forget_held` that it releases them.
 * `boddurci_set_keeps_files` sets whether the place keeps BASE.lock. `boddurci_has_it_here` returns whether this thread already holds the lock
 * in an open file, and so would wait for itself. A child does not hold the locks of its parent. */
void boddurci_note_held(struct boddurci_place *place);
void boddurci_forget_held(struct boddurci_place *place);
void boddurci_set_keeps_files(struct boddurci_place *place, int keeps);
int boddurci_has_it_here(const struct boddurci_place *place, enum boddurci_file lock);

/* ---- boddurci_group.c: threads that save a base at the same time */

struct boddurci_call;

/* The calls that wait for the next save, in the order of their arrival. */
struct boddurci_group {
    pthread_mutex_t mutex;       /* of the list and `is_saving`; not held during a save */
    struct boddurci_call *first; /* or NULL */
    struct boddurci_call **last; /* the place for the pointer to the next call */
    int is_saving;               /* a thread saves, or has the turn to save; atomic, and changed only under the mutex */
    int64_t freed;               /* when a thread had the turn last, in nanoseconds; atomic */
    int skips_return;            /* the number of coming saves after which the turn is not left free, since that was in vain */
    int waiting;                 /* the number of calls in the list; atomic */
    struct boddurci_call *calls; /* the calls of the present save, or NULL once they are served */
    struct boddurci_call *own;   /* that of the thread that saves */
    int served;                  /* the number of calls of the last save */
    int others;                  /* the number of calls that the last save served or that waited when it served them */
    int skips;                   /* the number of coming saves that do not wait for other calls, since a wait was in vain */
    int64_t begun;               /* when the present save took its calls, in nanoseconds */
    int64_t took;                /* the duration of the last save from then on; atomic */
    int64_t limit;               /* a last save that took less was short; atomic */
};

/* Locks a mutex that is held for a few microseconds at most. Tries for a while before it sleeps, since sleeping and waking take longer than
 * the mutex is held. */
void boddurci_lock_soon(pthread_mutex_t *mutex);

int boddurci_group_init(struct boddurci_group *group);
void boddurci_group_destroy(struct boddurci_group *group);

typedef uint32_t boddurci_saving(boddurci_base *base, boddurci_fault *fault);

/* Returns the result of a save that took this call. One thread at a time calls `save`, on behalf of all waiting calls. */
uint32_t boddurci_group_save(struct boddurci_group *group, boddurci_saving *save, boddurci_base *base, int insists, boddurci_fault *fault);

/* Waits shortly for the threads that the last save served, if they are likely to call again, and takes all waiting calls. Returns whether one
 * of these calls insists. Each save calls this once, before it compares the files with the notes and makes its plan. */
int boddurci_group_take(struct boddurci_group *group);

/* Returns whether boddurci_group_take would probably wait for other calls, which come within microseconds. */
int boddurci_group_awaits(const struct boddurci_group *group);

/* Lets all calls of the present save return DONE, except that of its thread. The save calls this once it is committed and holds BASE.lock
 * exclusively. So these threads work while it writes the data files, and readers that open the base later get the save. */
void boddurci_group_serve(struct boddurci_group *group);

/* ---- boddurci_files.c: an open base; boddurci_save.c saves it */

struct boddurci_base {
    boddurci db;
    struct boddurci_place place;
    struct boddurci_logged logged;
    uint32_t flags;
    pid_t process;               /* the process that opened the base */
    struct boddurci_notes notes; /* the state of the data files when the base last read or wrote them */
    int is_noted;                /* the notes describe files that equal the database, except for its changed pages */
    int is_planned;              /* a save has compared the lengths of the files and the directory */
    int may_have_written;        /* this save has made calls that may change the times of the data files */
    enum boddurci_change doubt;  /* how the times differed, if all pages have yet to be compared */
    char change[100];            /* how another program has changed the data files, until a save overwrites the change; otherwise empty */
    pthread_mutex_t mutex;       /* of db */
    struct boddurci_group saves; /* the turn to save; a call that needs both waits for its turn before it locks the mutex */
};

/* Like boddurci_open_files_within, but opens the base at the place of another one, even if the path of its folder has changed. */
boddurci_base *boddurci_open_like(const struct boddurci_place *place, uint32_t flags, int64_t milliseconds, boddurci_fault *fault);

/* Returns whether the base was opened by a parent of this process, and not by the process itself. */
int boddurci_is_of_another(const boddurci_base *base);

/* Like boddurci_take and boddurci_give, for a save, which has tested that the base belongs to this process. */
boddurci *boddurci_take_own(boddurci_base *base);
void boddurci_give_own(boddurci_base *base);

/* Marks the log of a writer and releases BASE.lock. The data files must be those that were last read or saved. If the log cannot be marked,
 * keeps BASE.lock, since otherwise older versions, which know only BASE.lock, would write. */
void boddurci_mark_and_give(boddurci_base *base);

/* ---- boddurci_shared_log.c: the log between the calls of a shared base */

/* The boot id of the system. A note is valid for one boot: after the next boot the data files may lack data that was not synced. */
struct boddurci_boot {
    uint64_t id[2];
    int is_known;
};

void boddurci_boot_of_system(struct boddurci_boot *boot);

/* A note about the log: the place of the next record, and the end of the records that are applied to both data files. The records
 * after it are the tail of the log. The note has the state of each data file: its device, inode, length, and a time after which the library has
 * not changed it, or zeros if the file was missing. Data files are written only when all records are flushed. */
struct boddurci_log_note {
    boddurci_log log;
    size_t applied;   /* the end of the applied records */
    size_t last;      /* the offset of the last bytes of the last record, at most BODDURCI_WITNESS_MOST bytes */
    uint64_t witness; /* the hash of these bytes: another log would hardly have the same */
    uint64_t epoch;   /* differs for each log that was empty meanwhile */
    uint64_t flushed; /* the records before this end are flushed */
    int has_failed;   /* a flush has failed, so the log must be recovered */
    int is_compared;  /* the data files were compared with the applied records, since no handle had the base open */
    int is_shared;    /* several records may be unflushed, as the header says */
    uint64_t states[8];
};

enum boddurci_noted {
    BODDURCI_UNMARKED, /* the redo file has no mark: the data files are the database */
    BODDURCI_NOTED,    /* the log has its mark and a note of this boot */
    BODDURCI_UNKNOWN   /* the log has its mark, and must be recovered before a change */
};

/* Reads the notes about an open redo file in an open BASE.lock, which is -1 if it is missing. Sets the note if the result is NOTED.
 * `boddurci_read_note` does not test whether the redo file has the room in the note (`boddurci_has_room`), and the last bytes of the records
 * before the end in the note (`boddurci_witness_of`). `boddurci_look_at_note` is for a process that holds no lock. It makes neither test,
 * returns NOTED even if a flush has failed, and returns UNKNOWN if a process writes the note meanwhile, even if it reads again. */
enum { BODDURCI_RECORDS_AT = 4096, BODDURCI_NEXT = 8, BODDURCI_WITNESS_MOST = 256 };
enum boddurci_noted boddurci_read_note(int redo, int lock, const struct boddurci_boot *boot, struct boddurci_log_note *note);
enum boddurci_noted boddurci_look_at_note(int redo, int lock, const struct boddurci_boot *boot, struct boddurci_log_note *note);
int boddurci_has_room(int redo, const struct boddurci_log_note *note);
uint64_t boddurci_witness_of(const uint8_t *bytes, size_t length);

/* Returns the state of the file under a name in a folder, or of an open file (with AT_EMPTY_PATH). A reader requests no times: after such a
 * request, some file systems set new times at the next write. */
struct boddurci_note boddurci_state_of(int folder, const char *name, int how, int has_times);

/* Returns how the data files differ from the state in a note: SAME; WRITTEN if a program that does not know the log has written them, since
 * a length differs or a time is later; or OTHERS for other files. A time of 0 was not read. */
enum boddurci_change boddurci_change_since(const struct boddurci_log_note *note, const struct boddurci_note files[2]);

/* Returns whether a program has written a data file after the time in a note. The times must have been read. */
int boddurci_is_written_since(const struct boddurci_log_note *note, const struct boddurci_note files[2]);

/* Returns whether the data files have the lengths in a note. */
int boddurci_have_lengths(const struct boddurci_log_note *note, const struct boddurci_note files[2]);

/* Sets the noted times of both data files, and the latest time, to those in a note. */
void boddurci_take_times(const struct boddurci_log_note *note, struct boddurci_notes *notes);

/* Returns whether a note says that all records of an open redo file are applied to the data files under the names. If so, sets the place of
 * the next record. */
int boddurci_is_applied(struct boddurci_place *place, int redo, boddurci_log *log);

/* Returns an epoch that no other log has: the time. */
uint64_t boddurci_new_epoch(void);

/* `boddurci_put_note` writes the first note to BASE.lock, without a sync. `boddurci_put_flushed` writes the second one, the end of the flushed
 * records of a log, and `boddurci_put_failed` the epoch of a log whose flush has failed; their callers may hold no lock. `boddurci_put_epoch`
 * writes the epoch of the notes to the header of the log, which makes them valid. `boddurci_clear_epoch` clears the epoch, and
 * `boddurci_clear_epoch_in` clears it in the bytes of a redo file. Clear it before the log is emptied, since later records may end at the same
 * place. */
int boddurci_put_note(int lock, const struct boddurci_boot *boot, const struct boddurci_log_note *note, const struct boddurci_note files[2]);
int boddurci_put_flushed(int lock, uint64_t epoch, uint64_t end);
int boddurci_put_failed(int lock, uint64_t epoch);
int boddurci_put_epoch(int redo, uint64_t epoch);
int boddurci_clear_epoch(int redo);
void boddurci_clear_epoch_in(struct boddurci_bytes *redo);

/* Returns whether the header of an open redo file says that several records may be unflushed. */
int boddurci_is_log_shared(int redo);

/* Reads the first bytes of the header of an open redo file and clears the mark and the epoch of the notes in them. Sets *length to the number
 * of bytes to write back: only the mark if the file has no such epoch. */
enum { BODDURCI_HEADER_USED = 176 };
int boddurci_unmarked_header(int redo, uint8_t header[BODDURCI_HEADER_USED], size_t *length);

/* ---- boddurci_shared_check.c: whether the notes are right, although their file system may have lost bytes that were not synced */

/* Returns whether a note is right: the place is checked, or a handle of a shared base has the files open, or the data files have the applied
 * records. `boddurci_checked_note` is `boddurci_read_note` for a shared base, and also returns UNKNOWN if the note is not right. The caller
 * holds a lock on BASE.lock. */
int boddurci_are_notes_right(struct boddurci_place *place, int redo, struct boddurci_log_note *note);
enum boddurci_noted boddurci_checked_note(struct boddurci_place *place, int redo, const struct boddurci_boot *boot,
                                          struct boddurci_log_note *note);

/* `boddurci_hold_notes` records that the place is checked, and locks a byte of BASE.lock, so that other processes need not check it. Call it
 * when the log is found right, has been recovered, or has no mark. `boddurci_drop_notes` unlocks the byte: the data files are closed. */
void boddurci_hold_notes(struct boddurci_place *place);
void boddurci_drop_notes(struct boddurci_place *place);

/* ---- crates/boddurci_c: the database of one page, which is proved */

/* Returns the number of the page of a key, according to the bytes of .dir. These bytes may be invalid: boddurci_open_page checks them. */
uint32_t boddurci_page_of(const uint8_t *key, size_t key_length, const uint8_t *dir, size_t dir_length, uint32_t unsigned_keys);

/* Replaces the database of an open handle by the database of one page. The handle keeps its programs and its limit. After that, one fetch,
 * store, delete or run on this key gives the same reply as on the whole database. `page` is a whole page, and `pag_length` a multiple of
 * its size. BAD_FILES if this page is not enough: the directory or the page is invalid, or not as a save leaves it, or the key leads to
 * another page. BAD_FILES is also returned if allocation fails. IS_CLOSED. After an error the handle is unchanged. */
uint32_t boddurci_open_page(boddurci *db, const uint8_t *key, size_t key_length, const uint8_t *dir, size_t dir_length, size_t pag_length,
                            uint32_t number, const uint8_t *page, size_t page_length);

/* Returns the plan that saves the database of the page after the command, and the numbers of the pages that the plan may write. Each of
 * these pages except `number` must be zeros in the file, or past its end. The plan is empty if nothing changes. SHORT_ROOM. STALE if this
 * page is not enough: the last page of .pag would become empty, or .pag would become too long. STALE is also returned if allocation fails.
 * IS_CLOSED. */
uint32_t boddurci_plan_page(boddurci *db, const uint8_t *dir, size_t dir_length, size_t pag_length, uint32_t number, const uint8_t *page,
                            size_t page_length, uint32_t *numbers, size_t numbers_room, size_t *numbers_count, uint8_t *plan,
                            size_t plan_room, size_t *plan_length);

#pragma GCC visibility pop
#endif
