/* Measures a database of N pairs with 16-byte keys and 8-byte values: the time per store and per fetch, and the length of .pag and the
 * memory per pair.
 *
 * cc -O2 -I out/boddurci benches/growth.c out/boddurci/libboddurci.a -pthread -o growth
 * usage: growth N [wide]     prints: N nanoseconds_a_store nanoseconds_a_fetch bytes_of_pag_a_pair bytes_of_memory_a_pair */
#include "boddurci.h"
#include <stdio.h>
#include <stdlib.h>
#include <string.h>
#include <time.h>
#include <unistd.h>

static double now(void)
{
    struct timespec t;
    clock_gettime(CLOCK_MONOTONIC, &t);
    return (double)t.tv_sec + (double)t.tv_nsec * 1e-9;
}

/* Returns the resident memory of the process in bytes, or 0 if it is unknown. */
static double memory(void)
{
    long all, used = 0;
    FILE *file = fopen("/proc/self/statm", "r");
    if (!file || fscanf(file, "%ld %ld", &all, &used) != 2)
        used = 0;
    if (file)
        fclose(file);
    return (double)used * (double)sysconf(_SC_PAGESIZE);
}

int main(int argc, char **argv)
{
    if (argc < 2)
        return 64;
    unsigned n = (unsigned)atoi(argv[1]);
    boddurci db = BODDURCI_CLOSED;
    char key[32];
    uint64_t value, sum = 0;
    size_t length, dir, pag;
    uint8_t text[100], none[2];
    double before = memory();
    if (boddurci_open(&db, BODDURCI_NO_BYTES, BODDURCI_NO_BYTES, argc > 2, 0, text, sizeof text, &length))
        return 1;
    double a = now();
    for (unsigned i = 0; i < n; i++) {
        snprintf(key, 17, "key%013u", (unsigned)(i * 2654435761u));
        value = i;
        if (boddurci_store(&db, (const uint8_t *)key, 16, (uint8_t *)&value, 8, 1))
            return 2;
    }
    double b = now();
    for (unsigned i = 0; i < n; i++) {
        snprintf(key, 17, "key%013u", (unsigned)(i * 2654435761u));
        if (boddurci_fetch(&db, (const uint8_t *)key, 16, (uint8_t *)&value, 8, &length))
            return 3;
        sum += value;
    }
    double c = now(), used = memory() - before;
    boddurci_files(&db, none, 0, &dir, none + 1, 0, &pag);
    boddurci_close(&db);
    if (sum != (uint64_t)n * (n - 1) / 2)
        return 4;
    printf("%u %.0f %.0f %.1f %.1f\n", n, (b - a) / n * 1e9, (c - b) / n * 1e9, (double)pag / n, used / n);
    return 0;
}
