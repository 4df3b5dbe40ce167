/* Declarations of c_group.c, which c_joins.c uses too: a simulated disk, calls that stop or fail on request, and threads that save. */
#ifndef C_GROUP_H
#define C_GROUP_H

#include "boddurci_files.h"
#include <errno.h>
#include <pthread.h>
#include <stdatomic.h>
#include <stdio.h>
#include <string.h>
#include <time.h>
#include <unistd.h>

extern atomic_ulong looked;

#define EXPECT(what)                                                                                                               \
    do {                                                                                                                           \
        looked++;                                                                                                                  \
        if (!(what)) {                                                                                                             \
            fprintf(stderr, "%s:%d: not so: %s\n", __FILE__, __LINE__, #what);                                                     \
            _exit(1);                                                                                                              \
        }                                                                                                                          \
    } while (0)

/* Waits for a millisecond. */
void rest(void);

/* Waits for a condition. If it never becomes true, an alarm ends the program. */
#define AWAIT(what)                                                                                                                \
    do                                                                                                                             \
        rest();                                                                                                                    \
    while (!(what))

/* The number of flushes, and of calls that wait in the list for the next save. */
extern atomic_ulong flushes;
extern atomic_int waiting;

/* A call stops as long as its `stops_` is set, and sets its `is_` meanwhile: a flush of the first thread, a read of .pag by any thread, a write
 * of .pag by a thread that is not the first. The next `fails_reads` reads of .pag fail. */
extern atomic_int stops_first, is_stopped, stops_reads, is_read_stopped, stops_writes, is_write_stopped, fails_reads;

/* If it is not NULL, a watched thread calls this function once, while its save waits for other calls. */
extern void (*meanwhile)(void);

/* A thread that stores its changes one after the other, and saves after each. */
struct saver {
    pthread_t thread;
    boddurci_base *base;
    int number, is_first, is_watched, changes;
    uint32_t flags;  /* of its saves */
    atomic_int done; /* the number of saves that have returned */
    uint32_t status;
    boddurci_fault fault;
};

/* `start_as` starts a thread like `new`. `start` starts one that is not watched and does not insist. */
void start(struct saver *saver, boddurci_base *base, int number, int is_first, int changes);
void start_as(struct saver *saver, struct saver new);
void join(struct saver *saver);

boddurci_base *opened(const char *name);

/* Stores a number under a key that is a number. `value_of` returns the number, or -1, and `left_value` that of the files that a loss of power
 * would leave now. */
void store(boddurci_base *base, int number, int value);
int value_of(boddurci_base *base, int number);
int left_value(int number);

/* In c_joins.c */
void test_joins(void);

#endif
