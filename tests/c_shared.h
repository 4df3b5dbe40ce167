/* Declarations that the parts of tests/c_shared.c share: the checks, calls on a shared base, reads and writes of its files, and the tests. */
#ifndef C_SHARED_H
#define C_SHARED_H

#include "boddurci_files.h"
#include <stdio.h>
#include <stdlib.h>
#include <string.h>

#define BYTES(text) ((const uint8_t *)(text)), (sizeof(text) - 1)

extern boddurci_fault fault;
extern unsigned long looked;
extern uint32_t more_flags; /* of all shared bases */

#define EXPECT(what)                                                                                                               \
    do {                                                                                                                           \
        looked++;                                                                                                                  \
        if (!(what)) {                                                                                                             \
            fprintf(stderr, "%s:%d: not so: %s (%s)\n", __FILE__, __LINE__, #what, fault.text);                                    \
            exit(1);                                                                                                               \
        }                                                                                                                          \
    } while (0)

/* Opens a shared base, which must succeed. `fails` returns whether an opening fails with this status. */
boddurci_shared *opened(const char *name, uint32_t flags);
int fails(const char *name, uint32_t flags, uint32_t status);

/* Runs bounded_counter without bounds. Returns the new number, or 0 if the call fails. `counter_of` returns the number of that program. */
uint64_t increment_with(boddurci_shared *shared, uint32_t counter, const char *key, boddurci_fault *into);
uint64_t increment(boddurci_shared *shared, uint32_t counter, const char *key);
uint32_t counter_of(boddurci_shared *shared);

/* Stores a pair. `has` returns whether a key has this value, or is missing if `value` is NULL. */
uint32_t store(boddurci_shared *shared, const char *key, const char *value);
int has(boddurci_shared *shared, const char *key, const char *value);

struct bytes {
    uint8_t *at;
    size_t length;
};

/* Reads or writes the file whose name is `base` and `ending`. A missing file has no bytes. Free the bytes. */
struct bytes read_file(const char *base, const char *ending);
void write_file(const char *base, const char *ending, const uint8_t *bytes, size_t length);

/* Returns whether the commit byte of the redo file is 1. */
int is_marked(const char *base);

/* Opens a file and takes its lock. */
int taken(const char *name, int how);

/* Waits for 20 milliseconds. */
void rest(void);

/* Returns a random number. The same seed gives the same numbers. */
extern uint32_t seed;
uint32_t roll(uint32_t below);

/* In c_shared_model.c */
void test_model(const char *name, uint32_t flags, uint32_t keys, int commands);

/* In c_shared_runs.c */
void test_programs(void);
void test_clock(void);
void test_adding(void);

/* In c_shared_files.c */
void test_names(void);
void test_boots(void);
void test_lost_pages(void);
void test_sizes(void);
void test_files(void);
void test_targets(void);
void test_others(void);
void test_replaced(void);
void test_swapped(void);
void test_folders(void);
void test_limit(void);
void test_long(void);
void test_memory(void);

/* In c_shared_notes.c */
void test_notes(void);

/* In c_shared_users.c */
void test_readers(void);
void test_group(void);

/* In c_shared_locks.c */
void test_locks(void);
void test_no_locks(void);
void test_services(void);
void test_waiting(void);
void test_signals(void);
void test_replaced_locks(void);

/* In c_shared_processes.c */
void test_forks(void);
void test_orphans(void);
void test_orphans_of_threads(void);
void test_lost(void);
void test_threads(void);

#endif
