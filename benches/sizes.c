/* Measures calls of a shared base of a given size.
 *
 * cc -O2 -I out/boddurci benches/sizes.c out/boddurci/libboddurci.a -pthread -o sizes (benches/run does it)
 * usage: sizes PATH PAIRS CALLS
 *
 * It makes a base of PAIRS counters at PATH, and prints six numbers. The first two are the lengths of .pag and .dir in bytes. The others
 * are medians in microseconds, over CALLS calls each: for opening the base, for the first fetch after that, for a later fetch, and for a
 * durable increment. The status is 5 if a call fails. */
#define _GNU_SOURCE
#include "boddurci_files.h"
#include "pairs.h"
#include <stdio.h>
#include <stdlib.h>
#include <sys/stat.h>
#include <time.h>

enum { MOST_CALLS = 10000 };
enum { OPENING, FIRST, FETCH, INCREMENT, KINDS };

static double times[KINDS][MOST_CALLS];

static double now(void)
{
    struct timespec t;
    clock_gettime(CLOCK_MONOTONIC, &t);
    return (double)t.tv_sec * 1e6 + (double)t.tv_nsec * 1e-3;
}

static int fills(const char *path, unsigned pairs)
{
    boddurci_base *base = boddurci_open_files(path, 0, NULL);
    uint64_t zero = 0;
    uint32_t status = base == NULL;
    boddurci *db = boddurci_take(base);
    for (unsigned i = 0; i < pairs && status == BODDURCI_DONE; i++) {
        make_key(key, i);
        status = boddurci_store(db, (uint8_t *)key, KEY_BYTES, (uint8_t *)&zero, sizeof zero, 0);
    }
    boddurci_give(base);
    int bad = status != BODDURCI_DONE || boddurci_save(base, NULL) != BODDURCI_DONE;
    boddurci_close_files(base);
    return bad;
}

/* Fetches a counter, and sets *took to the time of the fetch in microseconds. Returns 0 on success. */
static int fetches(boddurci_shared *shared, unsigned i, double *took)
{
    uint64_t count;
    size_t length;
    make_key(key, i);
    double from = now();
    uint32_t status = boddurci_shared_fetch(shared, (uint8_t *)key, KEY_BYTES, (uint8_t *)&count, sizeof count, &length, NULL);
    *took = now() - from;
    return status != BODDURCI_DONE || length != sizeof count;
}

static int increments(boddurci_shared *shared, uint32_t program, unsigned i, double *took)
{
    uint64_t end = 0, word;
    make_key(key, i);
    double from = now();
    uint32_t status = boddurci_shared_run(shared, program, (uint8_t *)key, KEY_BYTES, BODDURCI_NO_BYTES, 0, 0, 0, &end, &word, NULL);
    *took = now() - from;
    return status != BODDURCI_DONE || end != 1;
}

/* Makes one call of each kind, on random counters. Returns 0 on success. */
static int calls(const char *path, unsigned pairs, unsigned call)
{
    uint32_t program;
    double from = now();
    boddurci_shared *shared = boddurci_open_shared(path, 0, NULL);
    times[OPENING][call] = now() - from;
    unsigned i = (unsigned)(mixed(call) % pairs), other = (unsigned)(mixed(~call) % pairs);
    int bad = shared == NULL || fetches(shared, i, &times[FIRST][call]) || fetches(shared, other, &times[FETCH][call]) ||
              boddurci_shared_stock(shared, "counter", &program) != BODDURCI_DONE || increments(shared, program, i, &times[INCREMENT][call]);
    boddurci_close_shared(shared);
    return bad;
}

static int by_size(const void *one, const void *other)
{
    double a = *(const double *)one, b = *(const double *)other;
    return (a > b) - (a < b);
}

static long length_of(const char *path, const char *ending)
{
    char name[4096];
    struct stat found;
    snprintf(name, sizeof name, "%s%s", path, ending);
    return stat(name, &found) == 0 ? (long)found.st_size : -1;
}

int main(int argc, char **argv)
{
    unsigned pairs = argc == 4 ? (unsigned)strtoul(argv[2], NULL, 10) : 0, count = argc == 4 ? (unsigned)strtoul(argv[3], NULL, 10) : 0;
    if (pairs == 0 || count == 0 || count > MOST_CALLS)
        return 64;
    if (fills(argv[1], pairs))
        return 2;
    for (unsigned call = 0; call < count; call++)
        if (calls(argv[1], pairs, call))
            return 5;
    printf("%ld %ld", length_of(argv[1], ".pag"), length_of(argv[1], ".dir"));
    for (int kind = 0; kind < KINDS; kind++) {
        qsort(times[kind], count, sizeof times[kind][0], by_size);
        printf(" %.1f", times[kind][count / 2]);
    }
    printf("\n");
    return 0;
}
