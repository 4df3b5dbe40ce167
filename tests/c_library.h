/* Declarations that tests/c_library.c, tests/c_growths.c, tests/c_plans.c, tests/c_readings.c, tests/c_stocks.c and tests/c_tickets.c share. */
#include "boddurci.h"
#include <stdio.h>
#include <stdlib.h>
#include <string.h>

#define BYTES(text) ((const uint8_t *)(text)), (sizeof(text) - 1)

/* The number of checks. */
extern unsigned long looked;

#define EXPECT(what)                                                                                                               \
    do {                                                                                                                           \
        looked++;                                                                                                                  \
        if (!(what)) {                                                                                                             \
            fprintf(stderr, "%s:%d: not so: %s\n", __FILE__, __LINE__, #what);                                                     \
            exit(1);                                                                                                               \
        }                                                                                                                          \
    } while (0)

/* The number of allocations so far, while `refused` is not 0. The allocation with the number `refused` fails. */
extern unsigned long growths, refused;

/* The bytes of both files. Free them. */
struct files {
    uint8_t *dir, *pag;
    size_t dir_length, pag_length;
};

void open_empty(boddurci *db, uint32_t wide, uint32_t unsigned_keys);
struct files files_of(boddurci *db);
int are_same(struct files a, struct files b);
void free_files(struct files files);

/* A program that adds 1 to a number of 8 bytes: its text and its image. `submit_counter` gives it to a handle without programs, and `ask` asks
 * for a run of it by a ticket. */
#define COUNTER_TEXT                                                                                                               \
    "; adds 1 to a number of 8 bytes\n"                                                                                            \
    "jlt r2, 8, keep\n"                                                                                                            \
    "ldxdw r6, [r1]\n"                                                                                                             \
    "add r6, 1\n"                                                                                                                  \
    "stxdw [r1], r6\n"                                                                                                             \
    "mov r0, 1\n"                                                                                                                  \
    "exit\n"                                                                                                                       \
    "keep:\n"                                                                                                                      \
    "mov r0, 0\n"                                                                                                                  \
    "exit\n"
extern uint8_t counter[BODDURCI_IMAGE_MOST];
extern size_t counter_length;

void submit_counter(boddurci *db);
uint32_t ask(boddurci *db, boddurci_ticket *ticket, const char *key, uint32_t has_blank);

/* Returns the number in 8 bytes. */
uint64_t number_of(const uint8_t *bytes);

/* Tests of runs by a ticket, and of threads that run the counter under a mutex. */
void test_tickets(void);
void test_threads(int seconds);

/* Tests calls while each allocation fails in turn. */
void test_growths(void);

/* Tests of plans of saves, and of the pages that count as changed. */
void test_plans(uint32_t wide);
void test_marks(void);

/* Tests of files that are passed in pieces. `reads_in_memory` returns whether an allocation has failed. */
void test_readings(void);
int reads_in_memory(struct files files);

/* Tests of stock programs by name, whose texts are in the folder `examples`. `stocks_in_memory` returns whether an allocation failed. */
void test_stocks(const char *examples);
int stocks_in_memory(void);
