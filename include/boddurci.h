/* Boddurci for C: the proved core of a key-value store. It holds a database in memory, takes and returns the bytes of its two files in the
 * format of sdbm, and runs small verified programs on its records. boddurci_files.h adds files, locks and saves.
 *
 *     #include <boddurci.h>
 *     #include <stdio.h>
 *     #include <string.h>
 *
 *     int main(void)
 *     {
 *         boddurci db = BODDURCI_CLOSED;
 *         uint8_t value[BODDURCI_VALUE_MOST];
 *         size_t length;
 *         uint32_t status = boddurci_open(&db, BODDURCI_NO_BYTES, BODDURCI_NO_BYTES, 0, 0, value, sizeof value, &length);
 *         if (status == BODDURCI_DONE)
 *             status = boddurci_store(&db, (const uint8_t *)"ab", 2, (const uint8_t *)"xyz", 3, 1);
 *         if (status == BODDURCI_DONE)
 *             status = boddurci_fetch(&db, (const uint8_t *)"ab", 2, value, sizeof value, &length);
 *         if (status != BODDURCI_DONE)
 *             return fprintf(stderr, "boddurci: %s\n", boddurci_text(status)), 1;
 *         printf("%.*s\n", (int)length, (const char *)value);
 *         boddurci_close(&db);
 *         return 0;
 *     }
 *
 * The library is built for x86-64 with SSE4.1 (x86-64-v2).
 *
 * A handle is one database in memory with its programs. The library keeps no global state, takes no lock, starts no thread, and reads and
 * writes no file. The caller reads both files before boddurci_open, and writes both files after boddurci_files.
 *
 * Handles. Initialize a handle with BODDURCI_CLOSED. Never copy, compare or write the contents of a handle. Any thread may use a handle,
 * but only one call at a time: to share a handle, protect it with a mutex. Two handles are independent. Do not call the library in a signal
 * handler, nor in the forked child of a process that has threads.
 *
 * NULL. A handle, a reading and a ticket may be NULL. If the handle or the reading is NULL, a call returns IS_CLOSED, even boddurci_open.
 * If the ticket is NULL, a call returns NO_TICKET. There are two exceptions: boddurci_is_open returns 0, and a call without a result does
 * nothing.
 *
 * Long programs. boddurci_run needs your mutex while its program runs: usually less than a microsecond, and some 60 microseconds for the
 * longest program. If that is too long, run the program by a ticket, in three calls: boddurci_ask under the mutex, boddurci_work without
 * the mutex, boddurci_finish under the mutex. Together these calls do the same as boddurci_run, in one step at the time of boddurci_finish.
 *
 * Bytes. A key, a value, an argument and an image are each a pointer and a length. No other pointer may be NULL, even if its length is 0:
 * pass BODDURCI_NO_BYTES for no bytes. Arguments that a call only reads may overlap. Memory that a call writes (buffers, lengths, numbers,
 * the handle) must not overlap any other argument.
 *
 * Results. The caller passes a buffer for a result, with its size as the argument `.._room`. The call sets `*.._length` to the length of
 * the result, whether the result fits or not. If it does not fit, the buffer is unchanged. A text does not end in a zero byte. If there is
 * no memory for the text of a fault, the call returns NO_MEMORY instead of the fault, and the length of the text is 0.
 *
 * Statuses. Each call returns a status. The comment on a call names the statuses that the call may return besides DONE, without BODDURCI_.
 * After CHANGED and every greater status the handle, the ticket and all results are unchanged, unless the comment says otherwise.
 *
 * Memory comes from malloc. Each call that allocates may return NO_MEMORY. */
#ifndef BODDURCI_H
#define BODDURCI_H
#include <stddef.h>
#include <stdint.h>
#ifdef __cplusplus
extern "C" {
#endif

typedef struct boddurci {
    void *at;
} boddurci;

/* A run between boddurci_ask and boddurci_finish. The rules for handles above apply to tickets too. */
typedef struct boddurci_ticket {
    void *at;
} boddurci_ticket;

/* A .pag that is read in pieces. The rules for handles apply to readings too, except that only the thread that began a reading may use
 * it. */
typedef struct boddurci_reading {
    void *at;
} boddurci_reading;

/* The position in an iteration over all pairs. */
typedef struct boddurci_cursor {
    uint32_t page;
    uint32_t end;
    size_t pair;
} boddurci_cursor;

/* The version of this header, and the version of the library. The versions are equal if both were built together. */
#define BODDURCI_VERSION "2.0.0"
const char *boddurci_version(void);

#define BODDURCI_CLOSED { NULL }
#define BODDURCI_FREE { NULL }
#define BODDURCI_UNREAD { NULL }
#define BODDURCI_START { 0, 0, 0 }
#define BODDURCI_NO_BYTES ((const uint8_t *)""), 0

enum boddurci_status {
    BODDURCI_DONE = 0,           /* success: found, stored, deleted, counted, run, numbered, opened, written, asked or worked */
    BODDURCI_MISSING = 1,        /* the key does not exist */
    BODDURCI_EXISTS = 2,         /* the key exists already; nothing was inserted */
    BODDURCI_CROWDED = 3,        /* the pair does not fit, however often its page is split; nothing changed */
    BODDURCI_SHORT_ROOM = 4,     /* a buffer is too short; the lengths are set */
    BODDURCI_REFUSED = 5,        /* the image is not an accepted program, or there are 4,096 programs already; the text says why */
    BODDURCI_BAD_TEXT = 6,       /* the text is not a program; the line and the text of the fault are set */
    BODDURCI_BAD_FILES = 7,      /* the bytes are not a database; the text says why; the handle stays closed */
    BODDURCI_CHANGED = 8,        /* the page of the key has changed since boddurci_ask: ask again. From boddurci_save: another program has
                                    changed the files; the text says how */
    BODDURCI_STALE = 9,          /* the plan lacks a page that may have changed: call boddurci_changed, read those pages, and plan again */
    BODDURCI_IS_CLOSED = 16,     /* the handle is closed, or NULL */
    BODDURCI_IS_OPEN = 17,       /* the handle is already open */
    BODDURCI_PAIR_TOO_LARGE = 18,/* key and value, or key and blank, have more than BODDURCI_PAIR_MOST(wide) bytes together */
    BODDURCI_ARG_TOO_LONG = 19,  /* the argument has more than BODDURCI_ARG_MOST bytes */
    BODDURCI_NO_PROGRAM = 20,    /* no program has this number */
    BODDURCI_NO_MEMORY = 21,     /* out of memory */
    BODDURCI_FILE_TOO_LONG = 22, /* .pag would exceed 1 GiB, or the limit of boddurci_limit; nothing changed. From boddurci_plan: a file has
                                    4 GiB or more */
    BODDURCI_NO_TICKET = 23,     /* the ticket has no run, or its run has not been worked; or the ticket is NULL */
    BODDURCI_NO_STOCK = 24       /* no stock program has this name */
};

#define BODDURCI_PAIR_MOST(wide) ((wide) ? 8008 : 1008)
#define BODDURCI_VALUE_MOST 8008
#define BODDURCI_ARG_MOST 1024
#define BODDURCI_IMAGE_MOST 32768
#define BODDURCI_NOWHERE SIZE_MAX

/* The names of the stock programs. */
#define BODDURCI_STOCKS \
    "counter, bounded_add, bounded_counter, compare_and_set, sequence, lease, fenced_lease, rate_limit, semaphore, token_bucket"

/* Returns the text of a status of this header. boddurci_files_text of boddurci_files.h returns the text of a status of either header. */
static inline const char *boddurci_text(uint32_t status)
{
    switch (status) {
    case BODDURCI_DONE: return "done";
    case BODDURCI_MISSING: return "missing";
    case BODDURCI_EXISTS: return "exists";
    case BODDURCI_CROWDED: return "crowded";
    case BODDURCI_SHORT_ROOM: return "room too short";
    case BODDURCI_REFUSED: return "program refused";
    case BODDURCI_BAD_TEXT: return "text is no program";
    case BODDURCI_BAD_FILES: return "bad files";
    case BODDURCI_CHANGED: return "changed meanwhile";
    case BODDURCI_STALE: return "a changed page was not read";
    case BODDURCI_IS_CLOSED: return "handle closed";
    case BODDURCI_IS_OPEN: return "handle open already";
    case BODDURCI_PAIR_TOO_LARGE: return "pair too large";
    case BODDURCI_ARG_TOO_LONG: return "argument too long";
    case BODDURCI_NO_PROGRAM: return "no such program";
    case BODDURCI_NO_MEMORY: return "no memory";
    case BODDURCI_FILE_TOO_LONG: return "file too long";
    case BODDURCI_NO_TICKET: return "nothing worked under the ticket";
    case BODDURCI_NO_STOCK: return "no such stock program: the names are " BODDURCI_STOCKS;
    default: return "no status";
    }
}

/* Opens a closed handle on the database in the bytes of both files. If there are no bytes, the database is empty. Pages have 8,192 bytes if
 * `wide` is not 0, and 1,024 otherwise. Keys are hashed as unsigned bytes if `unsigned_keys` is not 0, and otherwise as signed bytes, as
 * sdbm does on x86-64. The files contain neither of these settings. IS_OPEN, NO_MEMORY (the text may be set), BAD_FILES with a text, for
 * example "Page(3, Offsets)". */
uint32_t boddurci_open(boddurci *db, const uint8_t *dir, size_t dir_length, const uint8_t *pag, size_t pag_length, uint32_t wide,
                       uint32_t unsigned_keys, uint8_t *text, size_t text_room, size_t *text_length);

/* Sets *looks_small to 1 if the bytes of both files look like a database with small pages, and to 0 otherwise. Call this before opening
 * files with wide pages: small pages can be valid wide pages by chance, and a change would destroy them. If *looks_small is 0, the files
 * are not a database with small pages, unless all whole pages of 8,192 bytes in .pag are zeros. Needs no handle. boddurci_open_files makes
 * this check, and boddurci_open does not. NO_MEMORY. */
uint32_t boddurci_looks_small(const uint8_t *dir, size_t dir_length, const uint8_t *pag, size_t pag_length, uint32_t unsigned_keys,
                              uint32_t *looks_small);

/* The same without all bytes of .pag in memory: pass the bytes in pieces, then open the reading. A reading stores only pages, so it takes
 * as much memory as the open database, and no memory for a piece of zeros.
 *
 *     boddurci_reading reading = BODDURCI_UNREAD;
 *     uint32_t status = BODDURCI_DONE;
 *     while (status == BODDURCI_DONE && (length = fread(piece, 1, sizeof piece, pag)) != 0)
 *         status = boddurci_read(&reading, 0, piece, length);
 *     if (status == BODDURCI_DONE)
 *         status = boddurci_open_reading(&db, &reading, dir, dir_length, 0, 0, text, sizeof text, &text_length);
 *     boddurci_end_reading(&reading);
 *
 * boddurci_read reads the next piece. Each piece except the last must consist of whole pages; 262,144 bytes are a good length. `wide` of
 * the first piece sets the page size; `wide` of later pieces is ignored. BAD_FILES if the earlier pieces end inside a page, FILE_TOO_LONG
 * for 2^63 bytes or more. After these two statuses the reading is unchanged. After NO_MEMORY the reading is unread.
 *
 * boddurci_reading_looks_small is boddurci_looks_small for the bytes that were read. NO_MEMORY.
 *
 * boddurci_open_reading is boddurci_open for the bytes that were read, with the same statuses. An unread reading is an empty .pag. After
 * DONE the reading is unread; after any other status it is unchanged. If the pieces were passed with the other page size, the call copies
 * all bytes.
 *
 * boddurci_end_reading frees the reading, which may be unread. */
uint32_t boddurci_read(boddurci_reading *reading, uint32_t wide, const uint8_t *piece, size_t piece_length);
uint32_t boddurci_reading_looks_small(boddurci_reading *reading, const uint8_t *dir, size_t dir_length, uint32_t unsigned_keys,
                                      uint32_t *looks_small);
uint32_t boddurci_open_reading(boddurci *db, boddurci_reading *reading, const uint8_t *dir, size_t dir_length, uint32_t wide,
                               uint32_t unsigned_keys, uint8_t *text, size_t text_room, size_t *text_length);
void boddurci_end_reading(boddurci_reading *reading);

/* Returns 1 if the handle is open, and 0 otherwise. */
uint32_t boddurci_is_open(boddurci *db);

/* Closes the handle and frees its memory. Saves nothing. Does nothing if the handle is closed. */
void boddurci_close(boddurci *db);

/* Sets the length in bytes up to which commands may extend .pag while the handle is open. The default, 1 GiB, is also the maximum. A
 * command that needs a page above the limit returns FILE_TOO_LONG; existing pages stay. Set a limit if untrusted users choose your keys.
 * With a few keys they can make .pag as long as the limit, with holes between its pages, and every later opening takes time for the whole
 * length. IS_CLOSED. */
uint32_t boddurci_limit(boddurci *db, size_t bytes);

/* Fetches the value of a key. The key may have any length. Allocates no memory. SHORT_ROOM, IS_CLOSED, and MISSING, which leaves
 * *value_length unchanged. */
uint32_t boddurci_fetch(boddurci *db, const uint8_t *key, size_t key_length, uint8_t *value, size_t value_room, size_t *value_length);

/* Sets the value of a key. If the key exists, replaces its value, or returns EXISTS if `replace` is 0. CROWDED, FILE_TOO_LONG,
 * PAIR_TOO_LARGE, IS_CLOSED, NO_MEMORY. */
uint32_t boddurci_store(boddurci *db, const uint8_t *key, size_t key_length, const uint8_t *value, size_t value_length,
                        uint32_t replace);

/* Deletes a key and its value. MISSING, IS_CLOSED, NO_MEMORY. */
uint32_t boddurci_delete(boddurci *db, const uint8_t *key, size_t key_length);

/* Counts the pairs, in a pass over all pages. IS_CLOSED. */
uint32_t boddurci_count(boddurci *db, size_t *count);

/* Assembles the text of a program into its image (docs/ASSEMBLER.md). Needs no handle. SHORT_ROOM, NO_MEMORY (the line and the text may be
 * set), BAD_TEXT with the line, counted from 1, and a text, for example "line 3: Operand". The line is 0 if the source is not UTF-8. */
uint32_t boddurci_assemble(const uint8_t *source, size_t source_length, uint8_t *image, size_t image_room, size_t *image_length,
                           size_t *line, uint8_t *text, size_t text_room, size_t *text_length);

/* Verifies the image of a program, which consists of units of 8 bytes, and gives the program a number. Numbers begin at 0, and are valid
 * until the handle is closed. The same image always gets the same number. IS_CLOSED, NO_MEMORY (the unit is BODDURCI_NOWHERE, and the text
 * may be set), REFUSED with a text, for example "Verify(OutOfRecord(3))", and the offending unit, here 3, or BODDURCI_NOWHERE. */
uint32_t boddurci_submit(boddurci *db, const uint8_t *image, size_t image_length, uint32_t *number, size_t *unit, uint8_t *text,
                         size_t text_room, size_t *text_length);

/* Submits a stock program by its name, one of BODDURCI_STOCKS, for example "counter". Sets *number as boddurci_submit does for the image of
 * the program, so a program that was submitted before keeps its number. docs/PROGRAMS.md says what each program does; that is proved.
 * NO_STOCK, IS_CLOSED and NO_MEMORY leave *number unchanged. REFUSED if there are 4,096 programs. boddurci_submit_stock takes the name by
 * its length, without a zero byte at its end. */
uint32_t boddurci_stock(boddurci *db, const char *name, uint32_t *number);
uint32_t boddurci_submit_stock(boddurci *db, const uint8_t *name, size_t name_length, uint32_t *number);

/* Runs program `number` on the record of a key, as one step. If the key does not exist and `has_blank` is not 0, runs it on a record of
 * `blank` zeros. The program can read the time `now` and the argument. *end is the program's result: 1 saves the record, 2 deletes the
 * pair, and any other number changes nothing. *word is its reply word. After MISSING and CROWDED, *end and *word are 0; after any other
 * status except DONE they are unchanged. MISSING if the key does not exist and `has_blank` is 0, CROWDED, FILE_TOO_LONG, IS_CLOSED,
 * NO_MEMORY. NO_PROGRAM, PAIR_TOO_LARGE, ARG_TOO_LONG; if several of these three apply, the call returns the first one in this order. */
uint32_t boddurci_run(boddurci *db, uint32_t number, const uint8_t *key, size_t key_length, const uint8_t *arg, size_t arg_length,
                      uint32_t has_blank, size_t blank, uint64_t now, uint64_t *end, uint64_t *word);

/* Writes the argument of the stock program bounded_counter: an amount, the least number and the greatest number. */
static inline void boddurci_add_argument(int64_t amount, uint64_t least, uint64_t greatest, uint8_t argument[24])
{
    const uint64_t values[3] = {(uint64_t)amount, least, greatest};

    for (int i = 0; i < 24; i++)
        argument[i] = (uint8_t)(values[i / 8] >> (8 * (i % 8)));
}

/* Adds an amount to the number in the first 8 bytes of a record, the lowest byte first, as one step. If the key does not exist, the number
 * is 0. *end is 1 if the amount was added, and *number is then the new number. Nothing changes if *end is 0 or 4. It is 0 if the new number
 * would be below `least` or above `greatest`, and *number is then the present number. It is 4 if the record has fewer than 8 bytes, and
 * *number is then 0. Each call runs the stock program bounded_counter, and first submits it, which allocates memory: to add often, call
 * boddurci_stock once and then boddurci_run. The statuses are those of these two calls. */
static inline uint32_t boddurci_add(boddurci *db, const uint8_t *key, size_t key_length, int64_t amount, uint64_t least,
                                    uint64_t greatest, uint64_t *end, uint64_t *number)
{
    uint8_t argument[24];
    uint32_t program, status = boddurci_stock(db, "bounded_counter", &program);

    if (status != BODDURCI_DONE)
        return status;
    boddurci_add_argument(amount, least, greatest, argument);
    return boddurci_run(db, program, key, key_length, argument, sizeof argument, 1, 8, 0, end, number);
}

/* The same run by a ticket. Initialize the ticket with BODDURCI_FREE:
 *
 *     boddurci_ticket ticket = BODDURCI_FREE;
 *     do {
 *         pthread_mutex_lock(&mutex);
 *         status = boddurci_ask(&db, &ticket, number, key, key_length, arg, arg_length, 1, 8, now);
 *         pthread_mutex_unlock(&mutex);
 *         if (status == BODDURCI_DONE)
 *             status = boddurci_work(&ticket);
 *         pthread_mutex_lock(&mutex);
 *         if (status == BODDURCI_DONE)
 *             status = boddurci_finish(&db, &ticket, &end, &word);
 *         pthread_mutex_unlock(&mutex);
 *     } while (status == BODDURCI_CHANGED);
 *     boddurci_abandon(&ticket);
 *
 * boddurci_ask puts the run and the present page of its key into the ticket, and drops an earlier run in the ticket. It does not run the
 * program, so it never returns MISSING, CROWDED or FILE_TOO_LONG: boddurci_finish returns these. It may return the other statuses of
 * boddurci_run; after these the ticket is unchanged.
 *
 * boddurci_work runs the program on that page. It does not use the handle, so another thread may use the handle meanwhile. NO_TICKET if the
 * ticket has no run, NO_MEMORY.
 *
 * boddurci_finish does the same as boddurci_run, with the same results, if the page has not changed since boddurci_ask. After DONE, MISSING
 * and CROWDED the ticket is free. CHANGED if any pair of the page has changed or the page was split. (A page of 1,024 bytes has room for
 * some 25 pairs of 24 bytes.) IS_CLOSED, NO_TICKET. After FILE_TOO_LONG and NO_MEMORY it may be called again.
 *
 * boddurci_abandon drops the run of a ticket, if the ticket has one. */
uint32_t boddurci_ask(boddurci *db, boddurci_ticket *ticket, uint32_t number, const uint8_t *key, size_t key_length, const uint8_t *arg,
                      size_t arg_length, uint32_t has_blank, size_t blank, uint64_t now);
uint32_t boddurci_work(boddurci_ticket *ticket);
uint32_t boddurci_finish(boddurci *db, boddurci_ticket *ticket, uint64_t *end, uint64_t *word);
void boddurci_abandon(boddurci_ticket *ticket);

/* Iterates over all pairs. The order is stable until a store, a delete or a run; after a change begin again. The caller owns the cursor,
 * and there may be any number of cursors. boddurci_first sets a cursor before the first pair. IS_CLOSED. boddurci_next returns the next
 * pair and moves the cursor after it. MISSING if no pair is left; SHORT_ROOM if the key or the value does not fit, and then the cursor does
 * not move; IS_CLOSED. */
uint32_t boddurci_first(boddurci *db, boddurci_cursor *cursor);
uint32_t boddurci_next(boddurci *db, boddurci_cursor *cursor, uint8_t *key, size_t key_room, size_t *key_length, uint8_t *value,
                       size_t value_room, size_t *value_length);

/* Returns the bytes of both files. SHORT_ROOM if the bytes of either file do not fit: then the call writes neither, so call it first with
 * buffers of length 0 to get the lengths. IS_CLOSED, NO_MEMORY. */
uint32_t boddurci_files(boddurci *db, uint8_t *dir, size_t dir_room, size_t *dir_length, uint8_t *pag, size_t pag_room,
                        size_t *pag_length);

/* Lists the numbers of the pages of .pag that may have changed since the handle was opened or since its last plan. Page numbers begin at 0.
 * The list has no order. If the list is empty, nothing has changed. A page whose bytes differ from those that the library would write, for
 * example because its free bytes are not zeros, is listed from the opening on. Allocates no memory. SHORT_ROOM, IS_CLOSED. */
uint32_t boddurci_changed(boddurci *db, uint32_t *numbers, size_t room, size_t *count);

/* Plans a save: the changes that make the files equal to the database. Pass the bytes of .dir, the length of .pag in bytes, and the bytes
 * of the pages with these numbers, one page after the other, with zeros past the end of the file. The numbers must include all pages that
 * boddurci_changed lists. The plan assumes that every other page in the file is unchanged since it was last written or opened. If other
 * pages may have changed, for example because another program may have written the files, pass all pages of the file and of the database.
 *
 * The plan has a change for each differing block of 1,024 bytes, first for the blocks of .dir, then for those of the pages. A change covers
 * the differing part of its block, extended to multiples of 32 bytes. The plan is empty if nothing differs. After DONE no page counts as
 * changed: if you do not carry out the plan, pass the numbers to boddurci_mark. STALE if a page that may have changed is not among the
 * numbers, or if `pages_length` is not the length of `count` pages; SHORT_ROOM; FILE_TOO_LONG also for more than 2^22 numbers; IS_CLOSED,
 * NO_MEMORY. After each of these the handle is unchanged.
 *
 * A byte 1 followed by the plan is a redo file, from which dbm and boddurci_files.h recover the files. The plan is 8 bytes "sdbmred2"; the
 * new lengths of .pag and of .dir, and their present lengths; the number of changes; and for each change its file (a byte, 0 for .pag and 1
 * for .dir), its offset, its length, its bytes, and the present bytes there, with zeros past the end of the file. Numbers have 4 bytes, the
 * lowest first. */
uint32_t boddurci_plan(boddurci *db, const uint8_t *dir, size_t dir_length, size_t pag_length, const uint32_t *numbers, size_t count,
                       const uint8_t *pages, size_t pages_length, uint8_t *plan, size_t plan_room, size_t *plan_length);

/* Marks pages as changed, for a plan that was not carried out. Takes a byte of memory for each number up to the largest one, so pass only
 * numbers that come from boddurci_changed. IS_CLOSED, NO_MEMORY. */
uint32_t boddurci_mark(boddurci *db, const uint32_t *numbers, size_t count);

#ifdef __cplusplus
}
#endif
#endif
