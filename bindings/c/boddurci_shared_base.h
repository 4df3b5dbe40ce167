/* Declarations that the C files of shared bases share. Programs that use the library do not include this file. */
#ifndef BODDURCI_SHARED_BASE_H
#define BODDURCI_SHARED_BASE_H

#include "boddurci_saves.h"

#pragma GCC visibility push(hidden)

/* ---- boddurci_shared_step.c: one call of a shared base, under its locks */

enum boddurci_kind { BODDURCI_FETCH, BODDURCI_STORE, BODDURCI_DELETE, BODDURCI_RUN };

/* The arguments and the results of a call. boddurci.h says what they mean. */
struct boddurci_command {
    enum boddurci_kind kind;
    const uint8_t *key;
    size_t key_length;
    const uint8_t *bytes; /* the value of a store, the argument of a run */
    size_t length;
    uint8_t *room;        /* of a fetch, like the next two fields */
    size_t room_length;
    size_t *value_length;
    uint32_t replace;     /* of a store */
    uint32_t number;      /* of a run, like all fields below */
    uint32_t has_blank;
    size_t blank;
    uint64_t per_second;  /* if it is not 0, `now` is read from the clock, with this number of units in a second */
    uint64_t now, end, word;
};

/* A submitted program: its image, or the name of a stock program. */
struct boddurci_program {
    uint8_t *bytes;
    size_t length;
    int is_stock;
};

/* An end of records of a log. */
struct boddurci_end {
    size_t at, count; /* the number of changes in the plans of all records before it */
    size_t last;      /* the start of the last bytes before it */
    uint64_t witness; /* the hash of these bytes */
};

/* The records after the end in the note have at most this many bytes. */
enum { BODDURCI_UNNOTED_MOST = 4096 };

/* The tail of a log: its records that are not applied to the data files. Their joined plan is kept between calls. */
struct boddurci_tail {
    uint8_t *bytes;      /* NULL until there is a tail; the joined plan starts at byte BODDURCI_PLAN_AT */
    size_t length;       /* of the joined plan, or 0 */
    uint64_t plan_epoch; /* of the log of the joined plan */
    size_t from;         /* the start of the records of the joined plan */
    struct boddurci_end joined; /* their end */
    size_t kept_from;    /* the start of those records whose bytes are in `kept` */
    uint8_t kept[BODDURCI_UNNOTED_MOST];
    int changes_directory; /* the joined plan changes .dir */
    uint8_t changed[512];  /* a bit for each block of .pag that the joined plan changes; blocks whose numbers differ by 4,096 share a bit */
    uint64_t epoch;      /* as the note says, like the next four fields */
    size_t applied;      /* the start of the tail */
    size_t noted;        /* the end in the note; records may follow it */
    uint64_t flushed;
    int is_shared;
    struct boddurci_end end; /* the end of the tail */
    size_t room;         /* of the log when the length of the open redo file was last found to have it, or 0 */
    int is_touched;      /* this call has read a byte that the tail changes */
    int is_later;        /* a call of this handle has left a record that is flushed later than the call */
    int is_due;          /* the tail is long, so this call flushes it after it has released the locks */
    size_t owed;         /* the end of the records that must be flushed before this call returns, or 0 */
};

/* A shared base. Between two calls its files stay open, and it holds no lock. */
struct boddurci_shared {
    boddurci db;                   /* the database of one page during a call, meaningless between calls; and the programs */
    struct boddurci_place place;
    struct boddurci_logged logged; /* its files stay open */
    struct boddurci_notes notes;   /* the data files as this call found or left them */
    struct boddurci_boot boot;
    int files[3];                  /* open for reading, or -1 */
    struct boddurci_inode redo;    /* of the redo file in files[BODDURCI_REDO] */
    struct boddurci_note last[2];  /* the data files when their last page was last found to belong to the directory */
    struct boddurci_inode alike;   /* the redo file that was last found to have the owner, the group and the permissions of .pag */
    struct timespec alike_at;      /* the coarse clock then */
    uint32_t flags;
    int64_t wait;                  /* milliseconds; atomic */
    pid_t process;                 /* the process that may use the base; 0 if it was forked during a call of another thread */
    int is_busy;                   /* a call has the turn, which protects all other fields except `wait` and `process` */
    pthread_mutex_t mutex;         /* protects `is_busy` */
    pthread_cond_t turn;           /* signalled when a call ends */
    struct boddurci_program *programs;
    size_t program_count;
    uint8_t *directory;            /* a buffer for .dir, of BODDURCI_SHORT_DIRECTORY bytes */
    uint8_t *plan;                 /* a buffer for a plan and the head of its record */
    size_t plan_room;
    struct boddurci_tail tail;
    struct boddurci_ahead *ahead;  /* the result of a command that was executed before the locks were taken; NULL until there is one */
    int others;                    /* if it is not 0, other processes have changed the base lately */
    int misses, skips;             /* the last results that were in vain, and the number of calls that now execute no command ahead */
    uint8_t page[8192];
    struct boddurci_shared *next;  /* in the list of all open shared bases */
};

enum { BODDURCI_SHORT_DIRECTORY = 262144 };

/* `boddurci_change_page` executes a command on the page of its key and saves the page. `boddurci_fetch_page` does a fetch, under BASE.lock
 * shared; if a log must be recovered first, it sets *must_recover and does nothing else. If the page is not enough, both set *is_whole and
 * change nothing. */
uint32_t boddurci_change_page(boddurci_shared *shared, struct boddurci_command *command, int *is_whole, boddurci_fault *fault);
uint32_t boddurci_fetch_page(boddurci_shared *shared, struct boddurci_command *command, int *must_recover, int *is_whole,
                             boddurci_fault *fault);

/* Reads and checks .dir for a new handle, without a lock, so that the first call only compares its bytes. If they are being written meanwhile,
 * or are invalid, the first call checks them. */
void boddurci_read_ahead(boddurci_shared *shared);

/* Applies the tail of the log if all its records are flushed and both locks are free. So the data files have all changes once the base is
 * quiet. */
void boddurci_try_to_apply(boddurci_shared *shared);

/* Opens the redo file under the name, unless it is open. Sets *redo to -1 if it is missing. */
uint32_t boddurci_open_redo(boddurci_shared *shared, int writes, int *redo, boddurci_fault *fault);

/* Closes all files of a shared base except those of its locks and its folder. `boddurci_drop_redo` closes only the redo file. */
void boddurci_drop_files(boddurci_shared *shared);
void boddurci_drop_redo(boddurci_shared *shared);

/* ---- boddurci_shared_page.c: a command on the page of its key */

/* The page of a key, and the lengths of both files when the page was read. */
struct boddurci_part {
    size_t directory; /* the length of .dir; its bytes are in shared->directory */
    size_t length;    /* of .pag */
    uint32_t number;
    size_t size;      /* of the page; its bytes are in shared->page */
};

/* The plan of a command. Its bytes are in shared->plan. */
struct boddurci_planned {
    size_t length;        /* of the plan, or 0 if nothing changes */
    uint32_t numbers[80]; /* the pages that the plan may write */
    size_t count;
};

/* Executes a command on a handle. */
uint32_t boddurci_answer(boddurci *db, struct boddurci_command *command);

/* Returns whether a command with this status may have changed its database. */
int boddurci_may_change(const struct boddurci_command *command, uint32_t status);

/* `boddurci_read_part` reads .dir and the page of a key. `boddurci_execute` executes a command on the page, plans its save and returns the
 * status of the command or of the plan, without a fault. If the page is not enough, both set *is_whole to 1, and otherwise to 0. */
uint32_t boddurci_read_part(boddurci_shared *shared, const struct boddurci_command *command, struct boddurci_part *part, int *is_whole,
                            boddurci_fault *fault);
uint32_t boddurci_execute(boddurci_shared *shared, struct boddurci_command *command, const struct boddurci_part *part,
                          struct boddurci_planned *planned, int *is_whole);

/* Sets *are_free to whether all pages that a plan may write, except that of the key, are zeros in the file. Overwrites shared->page. */
uint32_t boddurci_are_free(boddurci_shared *shared, const struct boddurci_part *part, const struct boddurci_planned *planned, int *are_free,
                           boddurci_fault *fault);

/* ---- boddurci_shared_ahead.c: commands that are executed before the locks are taken */

/* Executes the command of a change without a lock, if that is worthwhile, and keeps the result in shared->ahead. */
void boddurci_work_ahead(boddurci_shared *shared, const struct boddurci_command *command);

/* Sets the plan, the status and the results of a command to those that were kept, and returns 1. Returns 0 if there is no result, or if it
 * is not the result for the bytes that were read under the locks, which are in shared->page and shared->directory. */
int boddurci_take_ahead(boddurci_shared *shared, const struct boddurci_part *part, struct boddurci_command *command,
                        struct boddurci_planned *planned, uint32_t *status);

/* Notes whether other processes have changed the base since the last change of this handle. The tail was read under the locks. */
void boddurci_see_log(boddurci_shared *shared);

/* ---- boddurci_shared_tail.c: changes of a shared base that are flushed later
 *
 * A change may return, or release the locks, once its record is written to the log. Its record is flushed later, together with those of
 * other processes, and the data files are written when all records are flushed. A call that reads the data files lays the changes of these
 * records over the bytes that it reads. */

/* The tail is at most this long. Most changes of a plan are within a block of a data file. */
enum { BODDURCI_TAIL_MOST = 65536, BODDURCI_BLOCK = 1024 };

static inline int boddurci_has_tail(const struct boddurci_tail *tail)
{
    return tail->applied < tail->end.at;
}

/* `boddurci_no_tail` records that the log has no note. `boddurci_read_tail` reads the tail that a note describes, and joins its plans. The
 * bytes of shared->plan are lost. STALE if the records are invalid, or do not end as the note says. NO_MEMORY. */
void boddurci_no_tail(struct boddurci_tail *tail);
uint32_t boddurci_read_tail(boddurci_shared *shared, int redo, const struct boddurci_log_note *note, boddurci_fault *fault);

/* Like boddurci_read_tail, for a process that holds no lock: the log may already have more records than the note says. */
uint32_t boddurci_glance_at_tail(boddurci_shared *shared, int redo, const struct boddurci_log_note *note);

/* Applies the changes of the tail to a part of a data file that begins at offset `from`. */
int boddurci_lay_tail(struct boddurci_tail *tail, enum boddurci_file file, size_t from, uint8_t *part, size_t length);

/* Saves by a plan in shared->plan with this length: appends its record, or saves it as boddurci_logged_save does. */
uint32_t boddurci_save_or_append(boddurci_shared *shared, size_t length, boddurci_fault *fault);

/* Syncs the log, applies its tail and leaves a note, under both locks. Notes the new state of the data files. */
uint32_t boddurci_apply_tail(boddurci_shared *shared, boddurci_fault *fault);

/* Records that a reply depends on the tail, if it does. A call of a base without NO_FLUSH then flushes the tail before it returns. */
void boddurci_owe_tail(boddurci_shared *shared);

/* Returns once the records of a log up to `end` are flushed. The caller holds no lock. Processes that call it at the same time share a
 * sync. */
uint32_t boddurci_flush_log(boddurci_shared *shared, int redo, uint64_t epoch, size_t end, boddurci_fault *fault);

/* Flushes the tail if it is due and no other process is flushing, for a call that has released the locks. So the process that applies the tail
 * has to flush less while it holds the locks. If this fails, the next call recovers the log. */
void boddurci_flush_due(boddurci_shared *shared);

/* Flushes all records that the log has now. `boddurci_flush_owed` flushes those of shared->tail.owed, if this call has to. Both then try to
 * apply the tail. */
uint32_t boddurci_flush_all(boddurci_shared *shared, boddurci_fault *fault);
uint32_t boddurci_flush_owed(boddurci_shared *shared, boddurci_fault *fault);

#pragma GCC visibility pop
#endif
