/* Measures saves of one changed pair and of a hundred changed pairs, in a base whose .pag has 1 MiB and in a base whose .pag is a sparse 1
 * GiB. tests/c_library builds and runs it. The argument is a folder. It prints milliseconds. The status is 1 in three cases: a save of one
 * change or of a hundred changes takes on the larger base more than 5 milliseconds plus twenty times the time on the smaller base; a save
 * without a change takes a millisecond; or opening the larger base takes more than 64 MiB, although holes must take no memory. */
#define _POSIX_C_SOURCE 200809L
#include "boddurci_files.h"
#include <stdio.h>
#include <stdlib.h>
#include <string.h>
#include <sys/resource.h>
#include <sys/stat.h>
#include <sys/wait.h>
#include <time.h>
#include <unistd.h>

enum { ROUNDS = 9 };

static boddurci_fault fault;

static void need(int holds, const char *what)
{
    if (holds)
        return;
    fprintf(stderr, "c_large: %s (%s)\n", what, fault.text);
    exit(2);
}

static double now(void)
{
    struct timespec t;
    clock_gettime(CLOCK_MONOTONIC, &t);
    return (double)t.tv_sec * 1e3 + (double)t.tv_nsec * 1e-6;
}

/* Returns the hash of sdbm. */
static uint32_t hash(const char *key)
{
    uint32_t n = 0;
    for (; *key != 0; key++)
        n = (uint32_t)(signed char)*key + 65599 * n;
    return n;
}

/* Makes the first key from the number `from` on whose hash ends in these bits. */
static void find_key(char *key, unsigned from, uint32_t mask, uint32_t bits)
{
    do
        snprintf(key, 16, "k%u", from++);
    while ((hash(key) & mask) != bits);
}

static void store(boddurci_base *base, const char *key, const uint8_t *value, size_t length)
{
    uint32_t status = boddurci_store(boddurci_take(base), (const uint8_t *)key, strlen(key), value, length, 1);
    boddurci_give(base);
    need(status == BODDURCI_DONE, "a pair is not stored");
}

static double save(boddurci_base *base)
{
    double from = now();
    need(boddurci_save(base, &fault) == BODDURCI_DONE && fault.system == 0, "a save has failed");
    return now() - from;
}

/* Makes a base whose last page has the number 2^depth - 1. For each ten splits it stores pairs that do not fit on one page, since one store
 * splits a page at most ten times. */
static boddurci_base *made(const char *name, unsigned depth)
{
    static uint8_t value[600];
    struct stat pages;
    char key[16], file[32];
    uint32_t mask = ((uint32_t)1 << depth) - 1;
    boddurci_base *base = boddurci_open_files(name, 0, &fault);
    need(base != NULL, "a base is not opened");
    find_key(key, 0, mask, mask);
    store(base, key, value, sizeof value);
    for (unsigned bits = 10; bits <= depth; bits += 10) {
        mask = ((uint32_t)1 << bits) - 1;
        find_key(key, 0, mask, mask >> 1);
        store(base, key, value, sizeof value);
    }
    for (unsigned i = 0; i < 1000; i++) {
        snprintf(key, sizeof key, "%u", i);
        store(base, key, value, 8);
    }
    save(base);
    snprintf(file, sizeof file, "%s.pag", name);
    need(stat(file, &pages) == 0 && pages.st_size == (off_t)1024 << depth, "a file has another length");
    return base;
}

static int by_size(const void *one, const void *other)
{
    double a = *(const double *)one, b = *(const double *)other;
    return (a > b) - (a < b);
}

/* Returns the median time of saves of a number of changes. */
static double middle(boddurci_base *base, unsigned changes)
{
    double times[ROUNDS];
    char key[16];
    for (uint8_t round = 0; round < ROUNDS; round++) {
        for (unsigned i = 0; i < changes; i++) {
            uint8_t value[8] = {(uint8_t)(round + 1), (uint8_t)changes};
            snprintf(key, sizeof key, "%u", i * 7);
            store(base, key, value, sizeof value);
        }
        times[round] = save(base);
    }
    qsort(times, ROUNDS, sizeof *times, by_size);
    return times[ROUNDS / 2];
}

/* Opens the base in a new process. Returns the time, and sets *memory to the peak memory of that process in KiB. */
static double open_alone(const char *name, long *memory)
{
    int ends[2], status;
    double time = 0;
    need(pipe(ends) == 0, "there is no pipe");
    pid_t child = fork();
    if (child == 0) {
        struct rusage used;
        double from = now();
        boddurci_base *base = boddurci_open_files(name, BODDURCI_READ_ONLY, &fault);
        need(base != NULL && getrusage(RUSAGE_SELF, &used) == 0, "a base is not opened");
        time = now() - from;
        need(write(ends[1], &time, sizeof time) == sizeof time && write(ends[1], &used.ru_maxrss, sizeof used.ru_maxrss) > 0, "nothing is told");
        boddurci_close_files(base);
        _exit(0);
    }
    need(child > 0 && waitpid(child, &status, 0) == child && status == 0, "a base is not opened");
    need(read(ends[0], &time, sizeof time) == sizeof time && read(ends[0], memory, sizeof *memory) == sizeof *memory, "nothing is told");
    return time;
}

int main(int argc, char **argv)
{
    long memory = 0;
    if (argc != 2 || chdir(argv[1]) != 0)
        return 2;
    boddurci_base *small = made("small", 10), *large = made("large", 20);
    double one = middle(small, 1), hundred = middle(small, 100), none = save(small);
    double one_large = middle(large, 1), hundred_large = middle(large, 100), none_large = save(large);
    printf("1 MiB: 1 change %.2f, 100 changes %.2f, none %.3f; 1 GiB: %.2f, %.2f, %.3f\n", one, hundred, none, one_large, hundred_large, none_large);
    boddurci_close_files(small);
    boddurci_close_files(large);
    double open_large = open_alone("large", &memory);
    printf("opening of 1 GiB: %.0f milliseconds, %ld KiB\n", open_large, memory);
    return one_large > 20 * one + 5 || hundred_large > 20 * hundred + 5 || none_large > 1 || memory > 65536;
}
