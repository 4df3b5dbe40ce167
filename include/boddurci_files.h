/* A database in its files BASE.dir and BASE.pag, for services in C: files, locks and saves over boddurci.h, by POSIX calls.
 *
 *     boddurci_fault fault;
 *     boddurci_base *base = boddurci_open_files("visits", 0, &fault);
 *     if (base == NULL)
 *         return fprintf(stderr, "visits: %s\n", fault.text), 1;
 *     boddurci *db = boddurci_take(base);
 *     boddurci_store(db, (const uint8_t *)"ab", 2, (const uint8_t *)"xyz", 3, 1);
 *     boddurci_give(base);
 *     if (boddurci_save(base, &fault) != BODDURCI_DONE)
 *         fprintf(stderr, "visits: %s\n", fault.text);
 *     boddurci_close_files(base);
 *
 * An open database is in memory. Changes reach the files only by boddurci_save: the caller decides when to save. Threads share a base:
 * boddurci_take waits for the mutex of the base, boddurci_give releases the mutex, and boddurci_save takes it by itself. Threads that save
 * at the same time share saves.
 *
 * The log. A save appends a record to the log in BASE.redo and syncs that file once, which makes the save durable. Then it writes BASE.pag
 * and BASE.dir without a sync. BASE.redo belongs to these two files: keep all three together. Its first byte, the mark, is 1 while
 * BASE.redo has saves that may not be on the disk in both files. Closing the base syncs both files and clears the mark. After a kill or a
 * loss of power the next opening of the base recovers both files. A program that does not know the log, such as Perl's SDBM_File, sees a
 * save when the call that saves returns. But after a loss of power such a program may see old or mixed pages, until this library or dbm
 * has opened the base for writing once.
 *
 * Writers. One process at a time has a base open for writing, by this library or by the program dbm. This process holds a flock on
 * BASE.writer. Other processes wait for the lock as long as they request, and then get LOCKED. The text of the fault names the process that
 * holds the lock, if the system reports it. Several processes may change one database by shared bases (boddurci_open_shared, at the end of
 * this header), which hold the locks only during a call.
 *
 * Readers. Opening a base with BODDURCI_READ_ONLY does not wait for the writer, and reads the writer's last save. Readers and writers share
 * the files by a flock on BASE.lock: a writer holds that lock while it opens the base, during each save and while it closes the base, and a
 * reader holds it while it reads. So a save waits for active readers, but calls in memory do not. In three cases a writer keeps BASE.lock
 * between its calls: after a save that could not be written, until the next save succeeds, and before the first save of a new database,
 * since readers would find no complete save; and if it cannot mark BASE.redo when it opens the base (no room, no permission), until it can.
 * Versions of this library that do not know the log do not write while the mark is 1.
 *
 * Other programs. A program that does not know these locks, such as Perl, does not wait. If such a program has written, the next save
 * returns CHANGED and overwrites nothing, unless the save insists.
 *
 * Names. If both data files are symbolic links to those of another base, the locks are those of that base. boddurci_open_files resolves the
 * names once, and keeps the folder open. So a save goes to the same files after a chdir or a change of a link in the path. If the name
 * BASE.lock, .writer, .pag or .dir no longer leads to the file that was opened, a save returns MOVED.
 *
 * Owners. BASE.redo, BASE.lock and BASE.writer must be files with one name, owned by you, by root or by the owner of BASE.pag, and writable
 * only by users who may write BASE.pag. Otherwise the call returns UNSAFE. (But a reader ignores a BASE.writer that breaks this rule.) A
 * lock may also belong to a user who may write BASE.pag as a member of its group, or because all users may. After UNSAFE, find out who made
 * the file, and remove the file if you do not trust that user. If a redo file belongs to a user you trust, let that user's next command
 * recover it, or give it to the owner of BASE.pag: the data files may contain half of its saves. Closing a base removes a redo file that
 * could not get the owner, the group and the permissions of BASE.pag, so only a killed process leaves one behind. The next user who saves
 * replaces such a file, if this user owns it or is root. The library changes the owner and the permissions only of files that it has just
 * made.
 *
 * Forks. A base belongs to the process that opened it. In a forked child, boddurci_save returns FORKED, boddurci_take returns NULL,
 * boddurci_give does nothing, and boddurci_close_files only frees memory: the parent keeps the locks. The fork closes the lock files of the
 * child, so the locks end with the parent. A child that was not made by fork of the C library keeps them too, until it ends.
 *
 * Threads. If a thread is cancelled during a call of this header, the cancellation takes effect after the call. So no thread that is cancelled
 * leaves a lock behind, but a wait without a limit cannot be cancelled.
 *
 * Descriptors. No file of a base keeps the descriptor of a standard stream that is closed.
 *
 * NULL. Pass NULL as the fault if you do not need it. If the base is NULL, a save returns IS_CLOSED, boddurci_take returns NULL, and
 * boddurci_give and boddurci_close_files do nothing. If the name is NULL, an opening fails with BAD_NAME.
 *
 * None of this is proved; tests/c_library, tests/c_crashes, tests/hostile_library and tests/processes test it. */
#ifndef BODDURCI_FILES_H
#define BODDURCI_FILES_H
#include "boddurci.h"
#ifdef __cplusplus
extern "C" {
#endif

#if defined __GNUC__
#define BODDURCI_IS_LOOKED_AT __attribute__((warn_unused_result))
#else
#define BODDURCI_IS_LOOKED_AT
#endif

typedef struct boddurci_base boddurci_base;

enum boddurci_flags {
    BODDURCI_WIDE = 1,          /* pages of 8,192 bytes; the files do not say which */
    BODDURCI_UNSIGNED_KEYS = 2, /* keys are hashed as unsigned bytes; the files do not say how */
    BODDURCI_READ_ONLY = 4,     /* hold no lock after the opening, and allow no save */
    BODDURCI_NO_WAIT = 8,       /* do not wait for a lock, not even for the given time; a reader may then fail because of a save */
    BODDURCI_MUST_EXIST = 16,   /* if BASE.pag is missing, fail instead of starting with an empty database */
    BODDURCI_EMPTY = 32,        /* start with an empty database, and ignore the contents of the files */
    BODDURCI_ANY_SIZE = 64,     /* with WIDE: open the files even if they look like those of small pages */
    BODDURCI_NO_FLUSH = 256     /* of boddurci_open_shared: a change returns before it is flushed */
};

/* Flags of boddurci_save_with. */
enum boddurci_save_flags {
    BODDURCI_INSIST = 128 /* overwrite the changes of another program in the files. A shared save insists if one of its calls does */
};

/* Statuses in addition to those of boddurci.h. */
enum boddurci_files_status {
    BODDURCI_FILE_FAILED = 32, /* a system call failed: fault.system is its errno. If the errno is 0, the links of a base lead to two
                                  bases */
    BODDURCI_LOCKED = 33,      /* another process has the database open for writing, or a reader or writer uses its files */
    BODDURCI_BAD_REDO = 34,    /* BASE.redo is marked, and does not belong to these files: no save has left it, an older copy of the
                                  files was put back, or another program wrote the files. Or a record in the middle of its log is damaged;
                                  the text says so. To use the data files unchanged, move BASE.redo away */
    BODDURCI_NO_SAVE = 35,     /* the base was opened for reading only */
    BODDURCI_TOO_LONG = 36,    /* a file is longer than allowed: 1 GiB for .pag, 256 MiB for .dir */
    BODDURCI_UNSAFE = 37,      /* BASE.redo, .lock or .writer may belong to a user who may not write the base; the text says why. Control
                                  characters, invalid UTF-8 and bidirectional controls in the name are escaped */
    BODDURCI_MOVED = 38,       /* BASE.lock, .writer, .pag, .dir or .redo is not the file that was opened, or a link leads elsewhere */
    BODDURCI_FORKED = 39,      /* a parent of this process opened the base */
    BODDURCI_BAD_NAME = 40,    /* the name is NULL or empty, . or .., or ends in one of these after a / */
    BODDURCI_INTERRUPTED = 41, /* a signal was handled during the wait for a lock */
    BODDURCI_OPEN_HERE = 42,   /* this thread already has the base open, so it would wait for itself */
    BODDURCI_OTHER_SIZE = 43   /* with WIDE: .pag looks like a file of small pages, which a change would destroy. Open it without WIDE, or
                                  make its pages wide with `dbm widen`. If they are wide nevertheless, add ANY_SIZE */
};

/* A failure: its status, the errno of the failed system call or 0, and a text that ends in a zero byte. A save that returns DONE may report
 * a failed system call too. */
typedef struct boddurci_fault {
    uint32_t status;
    int system;
    char text[200];
} boddurci_fault;

/* Returns the text of a status of either header. */
const char *boddurci_files_text(uint32_t status);

/* Opens the database in BASE.dir and BASE.pag. Either file may be missing. On failure returns NULL and sets *fault. Then nothing has
 * changed, except that the files may have been recovered and lock files may have been made. FILE_FAILED, LOCKED (only with NO_WAIT),
 * BAD_REDO, TOO_LONG, UNSAFE, MOVED, BAD_NAME, OPEN_HERE, OTHER_SIZE, and BAD_FILES and NO_MEMORY of boddurci.h.
 *
 * If BASE.redo is marked, the call first recovers the files, even from a save of another user or of a version without the log. A read-only
 * opening writes nothing: it syncs BASE.redo, reads the data files, and applies the saves in BASE.redo in memory. While another process has
 * the base open for writing, a read-only opening reads only the data files. An opening for writing marks BASE.redo, which takes some syncs.
 * The call waits for the locks without a limit, and continues to wait after a signal. A user who may not write an existing .pag makes no
 * lock files.
 *
 * Memory: the call needs memory for the open database, the data of .dir, one piece of .pag, and the bytes of each page whose free bytes
 * differ from those that the library writes. To recover the files, it also needs memory for the data of .pag and BASE.redo. Holes take no
 * memory. */
boddurci_base *boddurci_open_files(const char *base, uint32_t flags, boddurci_fault *fault);

/* Like boddurci_open_files, but waits for the locks at most `milliseconds`, and then fails with LOCKED. 0 tries once, and -1 waits without
 * a limit. INTERRUPTED if a signal was handled meanwhile: call it again to continue. */
boddurci_base *boddurci_open_files_within(const char *base, uint32_t flags, int64_t milliseconds, boddurci_fault *fault);

/* boddurci_take waits for the mutex, and returns the handle, which you may use until boddurci_give. Never close the handle, and never pass
 * it to boddurci_plan: the changes would then count as saved. boddurci_take returns NULL if `base` is NULL, and in a child of the process
 * that opened the base. Calls with that NULL return IS_CLOSED, and boddurci_give does nothing. */
boddurci *boddurci_take(boddurci_base *base);
void boddurci_give(boddurci_base *base);

/* Saves: makes the files equal to the database in memory. boddurci_save does the same as boddurci_save_with without flags. A save appends
 * the changes to the log in BASE.redo, syncs the log, and then writes the changes to the data files in place, so these files keep their
 * owners, permissions and links. A new .dir gets the owner and the permissions of .pag. If nothing has changed, a save writes and makes
 * nothing. IS_CLOSED if `base` is NULL; FORKED, NO_SAVE, MOVED, UNSAFE, BAD_REDO, TOO_LONG, FILE_FAILED, and CHANGED, FILE_TOO_LONG and
 * NO_MEMORY of boddurci.h.
 *
 * Crashes. After a crash at any time the next opening finds the database from before the save or the one from after the save. Once the save
 * has returned DONE, the next opening finds the database from after the save. If the save has returned a fault, the next opening finds the
 * database from before the save, with one exception: if the text says that BASE.redo cannot be written, the save may be committed or not,
 * and the next save or opening finds out. A fault leaves the base open and unchanged, so you can save again.
 *
 * Costs. A save is one sync and a few writes. The log has room for 1 MiB, or for 64 KiB if the disk or the process's limit allows no more.
 * A log that saves fill within a second gets 4 MiB, if there is room. A save takes some more syncs in three cases: it finds the log full
 * and empties it, .pag or .dir gets shorter, or it is the first save of a new database. A save reads .dir and the pages that may have
 * changed, so its cost depends on the changes and not on the size of the base. But a save reads and compares the whole files if a time of a
 * file is not the one that this base has left or read, or if the base was opened with EMPTY. A page may have changed if a program ran on
 * it, even if the program saved nothing. The save holds the mutex while it compares pages, and not while it reads and writes pages.
 * (Exception: if other threads have changed further pages during the reads, three times in succession, it reads once under the mutex.)
 * Changes that other threads make meanwhile are in this save or in the next one.
 *
 * CHANGED: another program has changed a data file since this base read or saved it. The save writes neither file, and the base does not
 * change. The text says what was found: another length, a file that was made, a later write, or a page with other bytes. Each later save
 * returns CHANGED too, until boddurci_save_with with INSIST overwrites the files. To keep the data of the other program, close the base and
 * open it again. Nothing is merged. A new empty file, or another owner, mode or link, does not count as a change. A new time alone (touch)
 * does not count either, if this base has changed no page. If another program writes during the sync of a save, the next save returns
 * CHANGED. A write within the same tick of the clock (some milliseconds) as a save of this base may remain unnoticed. So may a write before
 * the call that saves for several threads has returned. On NFS, SMB, FUSE and other file systems that get their times from a server, a save
 * compares pages and not times, so it does not notice a write on a page that this base has changed too.
 *
 * Threads may save at the same time, each after its own changes. A call returns the result of a save that has the caller's changes. A save
 * waits for readers that hold BASE.lock. One call saves for all calls that wait when this save takes its calls; calls that come later wait
 * until it has ended. Once the save is durable, the other calls return DONE, and the saving call writes the data files. If the save fails
 * before, all of them return its status and its fault, and each caller may save again. No thread is served twice while another one waits. A
 * single thread never waits for other threads. While saves take less than half a millisecond, and 20 microseconds more for each call, a
 * waiting thread polls and yields the processor for twice as long as the last save took, and then sleeps. Under SCHED_FIFO a thread yields
 * only to threads of the same priority.
 *
 * Full disks. Before a save is committed, both files get the blocks that they need, if the file system can allocate them. So a save on a
 * full disk returns FILE_FAILED, and nothing has changed. A save also returns FILE_FAILED if it would make one of the three files longer
 * than the process may (RLIMIT_FSIZE); it raises no SIGXFSZ. If a file cannot be written although the save is committed, the save returns
 * DONE, fault->system is not 0, and the text names the file. Of the calls that share the save, perhaps only the one that saves reports
 * this. The save is then durable in BASE.redo, and the next save or opening for writing writes it to both files. Until then a program that
 * does not know BASE.redo, such as Perl's SDBM_File, may see half of the save. */
uint32_t boddurci_save(boddurci_base *base, boddurci_fault *fault) BODDURCI_IS_LOOKED_AT;
uint32_t boddurci_save_with(boddurci_base *base, uint32_t flags, boddurci_fault *fault) BODDURCI_IS_LOOKED_AT;

/* Syncs both data files, closes the log, releases the locks and frees the memory. Saves nothing. If a sync fails, the next opening recovers
 * the base. `base` may be NULL. No thread may use the base during the call or later. In a child of the process that opened the base, the
 * call only frees memory. */
void boddurci_close_files(boddurci_base *base);

/* ---- shared bases: several processes change one database
 *
 *     boddurci_fault fault;
 *     uint32_t counter;
 *     uint64_t end, word;
 *     boddurci_shared *shared = boddurci_open_shared("visits", 0, &fault);
 *     if (shared == NULL)
 *         return fprintf(stderr, "visits: %s\n", fault.text), 1;
 *     boddurci_shared_stock(shared, "counter", &counter);
 *     if (boddurci_shared_run(shared, counter, (const uint8_t *)"ab", 2, BODDURCI_NO_BYTES, 1, 8, 0, &end, &word, &fault) != BODDURCI_DONE)
 *         fprintf(stderr, "visits: %s\n", fault.text);
 *     boddurci_close_shared(shared);
 *
 * A shared base holds no lock and no pages between its calls. Each boddurci_shared_fetch, _store, _delete, _run, _run_now and _add is one
 * atomic step among all processes and threads that use the base, including commands of dbm. A call takes the locks, reads the page of its
 * key, makes its change, and saves the change. A change that returns DONE is durable, and so is each change that the reply of a call depends
 * on. No separate save is needed, and no call returns CHANGED.
 *
 * Without flushes. With NO_FLUSH a change returns once its record is written to BASE.redo, without a sync. All processes see the change at
 * once, including commands of dbm, and it survives a kill of any process. A crash of the machine may lose the last changes: the database is
 * then the one after all changes up to some point, at least up to the last boddurci_shared_flush, or up to the last change that a process
 * without NO_FLUSH has made. Processes with the flag and without it may use one base at the same time. On NFS, SMB and FUSE the flag has no
 * effect.
 *
 * Locks. A change takes BASE.lock and BASE.writer as an opening for writing does; a fetch takes only BASE.lock, shared. A call waits for
 * its locks at most 5 seconds, or as long as boddurci_shared_wait sets, and then returns LOCKED, with nothing changed. The text names the
 * process that holds the lock, if the system reports it. The wait continues after a signal. While a process has the base open by
 * boddurci_open_files, or by a session of dbm, each change returns LOCKED, and a fetch reads the last save of that process. A call that
 * flushes waits some half a second for the flush of another process, and then flushes by itself. If the file system has no locks, each call
 * returns FILE_FAILED, and the text names BASE.lock.
 *
 * Costs. A call reads all of .dir, and only a few pages of .pag, even of a long one. It compares .dir with the directory of the handle's
 * last call, or of its opening. It checks .dir only if they differ, which takes some 4 microseconds for each KiB; with 900,000 pairs .dir
 * has 8 KiB. A change appends its record to the log in BASE.redo and syncs the log, so it costs one sync. If processes wait for each other,
 * a change releases the locks before the sync, and one sync serves the changes of several processes. The log stays open between the calls
 * of all processes, with its mark. A note in BASE.lock has the position from which the next call reads the log. These calls take longer,
 * and as much memory as opening the base:
 *
 * - calls that open the whole base: a change for which one page is not enough, a change after which the last page of .pag would be empty,
 *   and any call on files that this library has not written or whose .dir has more than 256 KiB;
 * - the first call after the system was started, and sometimes the first after a process was killed during a call: it recovers the log;
 * - a change by a user who may write .pag and does not own it, if BASE.redo is missing: the call makes BASE.redo and removes it again,
 *   since this user cannot give it to the owner of .pag, and other users would not accept it.
 *
 * Other calls take less than 1 MiB and the memory of the handle's programs. A change after a command of dbm, a service or Perl begins a new
 * log, which takes some syncs. The first call while no process has the base open compares the data files with the log, since the file system
 * may have lost bytes that were not synced. For each MiB of records that takes some 6 milliseconds and 2 MiB of memory. If there are more than
 * 16 KiB of records, the next change begins a new log.
 *
 * Threads may share a handle. The handle has a mutex, which a call holds until it returns, even during its sync. A call waits for the mutex
 * at most as long as for a lock. If threads make many durable changes, open a handle for each thread: then one sync serves several threads.
 * In a child of the process that opened the handle, the handle opens its files again by itself, so a server may open a handle before it
 * forks. If another thread was in a call on the handle during the fork, or if the child was not made by fork of the C library, each call in
 * the child returns FORKED.
 *
 * Other programs. A program that does not know the locks, such as Perl's SDBM_File, may write between two calls, and the next call reads
 * the written data. It must not write during a call: the call would not notice the write before its commit. A write that keeps the lengths,
 * within the same tick of the clock as the last call, may remain unnoticed too. (A tick has some milliseconds.) If no process has the base
 * open after such a write, the next call may recover the log, and overwrite the written data or return BAD_REDO. Such a program sees the last
 * changes with NO_FLUSH, and those of processes that wait for each other, only after a flush while no other call is in progress. It must not
 * write before that flush: the next call might return BAD_REDO.
 *
 * Time. The caller of boddurci_shared_run sets `now` before the call waits for the locks, so `now` may be in the past when the program runs,
 * and earlier than the time of a run before. boddurci_shared_run_now reads the clock once the call has the locks. */
typedef struct boddurci_shared boddurci_shared;

/* Opens a shared base. The flags are WIDE, UNSIGNED_KEYS, MUST_EXIST, ANY_SIZE, NO_FLUSH, and NO_WAIT, with which each call tries a lock
 * only once. Other flags are ignored. With MUST_EXIST the call checks that the database exists. With WIDE and without ANY_SIZE it reads the
 * database once, as a reader, to find out whether its pages look small. Returns NULL and sets *fault if one of these checks fails, the name
 * is invalid or the folder is missing. The call also reads .dir and one or two pages, without a lock, which makes the first call on the
 * handle faster. */
boddurci_shared *boddurci_open_shared(const char *base, uint32_t flags, boddurci_fault *fault);

/* Closes the handle and frees its memory. With NO_FLUSH it flushes the changes first, but reports no failure: call boddurci_shared_flush to
 * find out. `shared` may be NULL. No thread may use the handle during the call or later. The log stays open for other processes, even if no
 * handle is left, since a process that changes one pair would otherwise need several syncs instead of one. Opening the base for writing by
 * boddurci_open_files closes the log. */
void boddurci_close_shared(boddurci_shared *shared);

/* Sets how many milliseconds each later call waits for the locks: 0 tries once, and -1 waits without a limit. IS_CLOSED if `shared` is
 * NULL. */
uint32_t boddurci_shared_wait(boddurci_shared *shared, int64_t milliseconds);

/* Makes all changes durable that calls of any process have returned so far. Takes no lock of the base, so no process that has the base open
 * delays the call. After FILE_FAILED the changes since the last flush may be durable or not. FORKED, LOCKED, NO_MEMORY, MOVED, UNSAFE,
 * IS_CLOSED. */
uint32_t boddurci_shared_flush(boddurci_shared *shared, boddurci_fault *fault) BODDURCI_IS_LOOKED_AT;

/* These calls do the same as those of boddurci.h, each as one durable step, with the same results and statuses. They also return FORKED,
 * LOCKED, MOVED, UNSAFE, BAD_REDO, TOO_LONG, FILE_FAILED, OTHER_SIZE, OPEN_HERE and BAD_FILES, as above. After any status except DONE the
 * database and all results are unchanged, except as boddurci.h says of SHORT_ROOM, MISSING and CROWDED. If the text says that BASE.redo
 * cannot be written, the change may be saved or not, and a fetch may have written its results. DONE with fault->system not 0 reports a
 * system call that failed after the commit, as boddurci_save does. */
uint32_t boddurci_shared_fetch(boddurci_shared *shared, const uint8_t *key, size_t key_length, uint8_t *value, size_t value_room,
                               size_t *value_length, boddurci_fault *fault);
uint32_t boddurci_shared_store(boddurci_shared *shared, const uint8_t *key, size_t key_length, const uint8_t *value, size_t value_length,
                               uint32_t replace, boddurci_fault *fault) BODDURCI_IS_LOOKED_AT;
uint32_t boddurci_shared_delete(boddurci_shared *shared, const uint8_t *key, size_t key_length, boddurci_fault *fault) BODDURCI_IS_LOOKED_AT;
uint32_t boddurci_shared_run(boddurci_shared *shared, uint32_t number, const uint8_t *key, size_t key_length, const uint8_t *arg,
                             size_t arg_length, uint32_t has_blank, size_t blank, uint64_t now, uint64_t *end, uint64_t *word,
                             boddurci_fault *fault) BODDURCI_IS_LOOKED_AT;

uint32_t boddurci_shared_add(boddurci_shared *shared, const uint8_t *key, size_t key_length, int64_t amount, uint64_t least,
                             uint64_t greatest, uint64_t *end, uint64_t *number, boddurci_fault *fault) BODDURCI_IS_LOOKED_AT;

/* Like boddurci_shared_run, with the time of the system's clock since 1970. `per_second` is the number of units in a second: 1 for seconds,
 * 1000 for milliseconds; 0 counts as 1, and a number above 1000000000 as 1000000000. The call reads the clock once it has the locks. So
 * the times of these calls never fall, in whichever processes they are made, if all have the same unit and nobody sets the clock back. */
uint32_t boddurci_shared_run_now(boddurci_shared *shared, uint32_t number, const uint8_t *key, size_t key_length, const uint8_t *arg,
                                 size_t arg_length, uint32_t has_blank, size_t blank, uint64_t per_second, uint64_t *end, uint64_t *word,
                                 boddurci_fault *fault) BODDURCI_IS_LOOKED_AT;

/* These calls submit a program to the handle, as boddurci_submit and boddurci_stock do. They use no file. */
uint32_t boddurci_shared_submit(boddurci_shared *shared, const uint8_t *image, size_t image_length, uint32_t *number, size_t *unit,
                                uint8_t *text, size_t text_room, size_t *text_length);
uint32_t boddurci_shared_stock(boddurci_shared *shared, const char *name, uint32_t *number);

#ifdef __cplusplus
}
#endif
#endif
