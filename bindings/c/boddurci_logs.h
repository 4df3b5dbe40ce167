/* Declarations of crates/boddurci_logs: the steps of a log, which are proved. docs/DESIGN.md has their guarantees. Programs that use the library
 * do not include this file. */
#ifndef BODDURCI_LOGS_H
#define BODDURCI_LOGS_H
#include "boddurci.h"
#include <stddef.h>
#include <stdint.h>

#pragma GCC visibility push(hidden)

/* The place of the next record in a log: the end of the records and the room for records, both counted from the end of the header, and the
 * number of changes in the plans of all records. */
typedef struct {
    size_t end, room, count;
} boddurci_log;

enum { BODDURCI_WRITE, BODDURCI_ZEROS, BODDURCI_RESIZE, BODDURCI_SYNC };

/* A step: one call on a file, as five words. There are four kinds of steps: write `length` bytes, which begin at index `from` of a buffer,
 * at offset `at` of the file; write `length` zeros at `at`; set the length of the file (new bytes are zeros); sync the bytes, the length
 * and the name of the file. */
typedef struct {
    uint64_t kind, file /* 0 .pag, 1 .dir, 2 .redo */, at, from, length;
} boddurci_step;

/* Returns the steps that open the log of these files with room for at least `room` bytes, and the place of the first record. If the redo
 * file has its mark, the steps recover the data files first; otherwise the call does not need the bytes of the data files. SHORT_ROOM if a
 * buffer is too short: the call then sets only the lengths. BAD_FILES if the redo file has no plan of these files. STALE if a record in the
 * middle of its log is damaged. FILE_TOO_LONG if the room is over 2^30. NO_MEMORY. */
uint32_t boddurci_log_open(const uint8_t *pages, size_t pages_length, const uint8_t *directory, size_t directory_length, const uint8_t *redo,
                           size_t redo_length, size_t room, boddurci_log *log, uint8_t *bytes, size_t bytes_room, size_t *bytes_length,
                           uint64_t *words, size_t words_room, size_t *words_length);

/* Returns the steps that apply the plans in the redo file to copies of the data files. If the redo file has no plan, there are no steps.
 * The statuses are those of `boddurci_log_open` except FILE_TOO_LONG. */
uint32_t boddurci_log_read(const uint8_t *pages, size_t pages_length, const uint8_t *directory, size_t directory_length, const uint8_t *redo,
                           size_t redo_length, uint8_t *bytes, size_t bytes_room, size_t *bytes_length, uint64_t *words, size_t words_room,
                           size_t *words_length);

/* Returns the steps of a save, the number of words of the steps that commit the save, and the place of the next record. The plan starts at
 * bytes[BODDURCI_PLAN_AT]; the call writes the bytes before the plan. SHORT_ROOM, BAD_FILES if the bytes have no valid plan, FILE_TOO_LONG,
 * NO_MEMORY. */
enum { BODDURCI_PLAN_AT = 18 };
uint32_t boddurci_log_save(boddurci_log *log, uint8_t *bytes, size_t length, uint64_t *words, size_t words_room, size_t *words_length,
                           size_t *committed);

/* Returns the steps that close a log. These steps write no bytes of a buffer. SHORT_ROOM, NO_MEMORY. */
uint32_t boddurci_log_close(uint64_t *words, size_t words_room, size_t *words_length);

/* Returns the step that appends the record of a save to a shared log without a sync, and sets *log to the log after it. The plan starts at
 * byte BODDURCI_PLAN_AT of `bytes`. STALE if the log has no records or no room, or if the plan makes a file shorter: save the plan then.
 * Otherwise the statuses of boddurci_log_save. */
uint32_t boddurci_log_append(boddurci_log *log, uint8_t *bytes, size_t length, uint64_t *words, size_t words_room, size_t *words_length);

/* Returns the steps that make a log shared. They write a byte 1, which is byte 0 of their buffer. SHORT_ROOM, NO_MEMORY. */
uint32_t boddurci_log_share(uint64_t *words, size_t words_room, size_t *words_length);

/* Returns the steps that apply a plan to both data files. The plan starts at byte BODDURCI_PLAN_AT of `bytes`. The statuses of
 * boddurci_log_save. */
uint32_t boddurci_log_apply(const uint8_t *bytes, size_t length, uint64_t *words, size_t words_room, size_t *words_length);

/* Joins the plan of the first record in `records` to the plan in the first *plan_length bytes of `plan`. If *plan_length is 0, copies the
 * plan of the record. Sets *plan_length, and *used to the length of the record. SHORT_ROOM, with *plan_length unchanged, if the result does
 * not fit. BAD_FILES if the bytes do not begin with a complete record, or if the plans cannot be joined. */
uint32_t boddurci_log_join(uint8_t *plan, size_t plan_room, size_t *plan_length, const uint8_t *records, size_t records_length, size_t *used);

/* Applies the changes of a plan to a part of a data file (0 .pag, 1 .dir) that begins at offset `from`. Sets *touched to 1 if a change
 * covers a byte of the part, and to 0 otherwise. BAD_FILES if the bytes are not a plan. FILE_TOO_LONG if the part ends past 2^32. */
uint32_t boddurci_log_lay(const uint8_t *plan, size_t plan_length, uint32_t file, size_t from, uint8_t *part, size_t part_length,
                          uint32_t *touched);

#pragma GCC visibility pop
#endif
