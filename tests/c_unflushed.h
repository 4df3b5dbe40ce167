/* Declarations that the parts of tests/c_unflushed.c share: the checks, faults of the system, calls on a shared base, and its files. */
#ifndef C_UNFLUSHED_H
#define C_UNFLUSHED_H

#include "boddurci_files.h"
#include <stdio.h>
#include <stdlib.h>
#include <string.h>
#include <sys/types.h>

#define BYTES(text) ((const uint8_t *)(text)), (sizeof(text) - 1)

/* The words of the notes in BASE.lock and of the header of a log, which docs/DESIGN.md defines, and where the records begin. */
enum { END = 8, COUNT = 24, APPLIED = 32, EPOCH = 56, BOOT = 64, CHECK = 144, FLUSHED = 152, FAILED = 176 };
enum { SHARED = 9, EPOCH_OF_LOG = 24, HEADER = 4096 };
enum { TAIL_MOST = 65536 };

extern boddurci_fault fault;
extern unsigned long looked;

#define EXPECT(what)                                                                                                               \
    do {                                                                                                                           \
        looked++;                                                                                                                  \
        if (!(what)) {                                                                                                             \
            fprintf(stderr, "%s:%d: not so: %s (%s)\n", __FILE__, __LINE__, #what, fault.text);                                    \
            exit(1);                                                                                                               \
        }                                                                                                                          \
    } while (0)

/* Faults of the system: the next write of .pag kills this process, or fails, and the next sync fails. The others are the numbers of syncs and
 * of calls that allocate blocks. */
extern int kills, write_fails, sync_fails;
extern unsigned long syncs, reserves;

/* Opens a shared base, which must succeed. */
boddurci_shared *opened(const char *name, uint32_t flags);

/* Stores a pair. `stores` and `flushes` return whether the call succeeds without a fault. */
uint32_t store(boddurci_shared *shared, const char *key, const char *value);
int stores(boddurci_shared *shared, const char *key, const char *value);
int flushes(boddurci_shared *shared);

/* Returns whether a key has this value, or is missing if `value` is NULL. `is_in_files` returns whether the whole database has a pair. */
int has(boddurci_shared *shared, const char *key, const char *value);
int is_in_files(const char *base, uint32_t flags, const char *key, const char *value);

/* Makes changes in a child that is killed after them. */
void store_and_die(const char *base, const char *first, const char *second);

/* Opens the file whose name is `base` and `ending`, or reads or writes its bytes. The bytes past its end are zeros. */
int open_file(const char *base, const char *ending);
void read_bytes(const char *base, const char *ending, off_t at, uint8_t *bytes, size_t length);
void write_bytes(const char *base, const char *ending, off_t at, const uint8_t *bytes, size_t length);

/* Returns a word of the notes. `put_word` writes a word into bytes. */
uint64_t word_at(const char *base, off_t at);
void put_word(uint8_t *bytes, uint64_t word);

/* Makes the note one of another boot of the system. */
void change_boot(const char *base);

/* Returns the end of the records, which may be after the end in the note, and the length of the records that are not yet applied. */
uint64_t end_of(const char *base);
uint64_t tail_of(const char *base);

/* Returns the number of changes in the plans of the records that the note describes. */
uint64_t changes_of(const char *base);

/* The header of the log: whether it is shared, its epoch, and whether its commit byte is 1. */
int is_log_shared(const char *base);
uint64_t epoch_of_log(const char *base);
int is_marked(const char *base);

/* In c_unflushed_records.c and c_unflushed_logs.c */
void test_records(void);
void test_logs(void);

#endif
