/* Measures calls of the library: N stores, fetches and increments (runs of examples/counter.s), with keys of 16 bytes and values of 8.
 *
 * cc -O2 -I out/boddurci bindings/c/bench.c out/boddurci/libboddurci.a -pthread -o bench
 * usage: bench N [wide]
 *
 * It prints how many stores, fetches, runs and runs by a ticket it makes per second. Then it prints how many milliseconds it takes to make
 * the bytes of both files, to open a database on these bytes, and to plan a save of one changed pair. */
#include "boddurci.h"
#include <stdio.h>
#include <stdlib.h>
#include <string.h>
#include <time.h>

/* examples/counter.s */
static const uint8_t image[] = {
    0xa5, 2, 5, 0, 8, 0, 0, 0, 0x79, 0x16, 0, 0, 0, 0, 0, 0,
    7, 6, 0, 0, 1, 0, 0, 0, 0x7b, 0x61, 0, 0, 0, 0, 0, 0,
    0xb7, 0, 0, 0, 1, 0, 0, 0, 0x95, 0, 0, 0, 0, 0, 0, 0,
    0xb7, 0, 0, 0, 0, 0, 0, 0, 0x95, 0, 0, 0, 0, 0, 0, 0,
};

static double now(void)
{
    struct timespec t;
    clock_gettime(CLOCK_MONOTONIC, &t);
    return t.tv_sec + t.tv_nsec * 1e-9;
}

static void name(char *key, unsigned i)
{
    snprintf(key, 17, "key%013u", (unsigned)(i * 2654435761u));
}

#define KEY (const uint8_t *)key, 16

/* Changes one pair and plans a save. Returns 0 if the plan was made. */
static int plan_one(boddurci *db, const uint8_t *dir, size_t dir_length, const uint8_t *pag, size_t pag_length, size_t page)
{
    static uint8_t pages[8192], plan[65536];
    uint32_t number = 0;
    uint64_t value = 1;
    size_t count, length;
    char key[32];
    name(key, 0);
    if (boddurci_store(db, KEY, (uint8_t *)&value, 8, 1) || boddurci_changed(db, &number, 1, &count) || count != 1)
        return 1;
    if ((number + (size_t)1) * page <= pag_length)
        memcpy(pages, pag + number * page, page);
    return (int)boddurci_plan(db, dir, dir_length, pag_length, &number, 1, pages, page, plan, sizeof plan, &length) || length == 0;
}

int main(int argc, char **argv)
{
    if (argc < 2)
        return 64;
    unsigned n = (unsigned)atoi(argv[1]);
    boddurci db = BODDURCI_CLOSED;
    char key[32];
    uint64_t value, sum = 0, end, word;
    size_t length, unit, dir_length, pag_length;
    uint8_t text[100], none[2];
    uint32_t number;
    if (boddurci_open(&db, BODDURCI_NO_BYTES, BODDURCI_NO_BYTES, argc > 2, 0, text, sizeof text, &length) ||
        boddurci_submit(&db, image, sizeof image, &number, &unit, text, sizeof text, &length))
        return 1;
    double a = now();
    for (unsigned i = 0; i < n; i++) {
        name(key, i);
        value = i;
        if (boddurci_store(&db, KEY, (uint8_t *)&value, 8, 1))
            return 2;
    }
    double b = now();
    for (unsigned i = 0; i < n; i++) {
        name(key, i);
        if (boddurci_fetch(&db, KEY, (uint8_t *)&value, 8, &length))
            return 3;
        sum += value;
    }
    double c = now();
    for (unsigned i = 0; i < n; i++) {
        name(key, i);
        if (boddurci_run(&db, number, KEY, BODDURCI_NO_BYTES, 1, 8, 0, &end, &word) || end != 1)
            return 4;
    }
    double d = now();
    for (unsigned i = 0; i < n; i++) {
        boddurci_ticket ticket = BODDURCI_FREE;
        name(key, i);
        if (boddurci_ask(&db, &ticket, number, KEY, BODDURCI_NO_BYTES, 1, 8, 0) || boddurci_work(&ticket) ||
            boddurci_finish(&db, &ticket, &end, &word) || end != 1)
            return 4;
    }
    double t = now();
    boddurci_files(&db, none, 0, &dir_length, none + 1, 0, &pag_length);
    uint8_t *dir = malloc(dir_length + 1), *pag = malloc(pag_length + 1);
    if (boddurci_files(&db, dir, dir_length, &dir_length, pag, pag_length, &pag_length))
        return 5;
    double e = now();
    boddurci_close(&db);
    double f = now();
    if (boddurci_open(&db, dir, dir_length, pag, pag_length, argc > 2, 0, text, sizeof text, &length))
        return 6;
    double g = now();
    if (plan_one(&db, dir, dir_length, pag, pag_length, argc > 2 ? 8192 : 1024))
        return 5;
    double p = now();
    boddurci_close(&db);
    if (sum != (uint64_t)n * (n - 1) / 2)
        return 7;
    printf("boddurci%s %.0f %.0f %.0f ticket %.0f files %.0f ms open %.0f ms plan %.3f ms\n", argc > 2 ? "_wide" : "", n / (b - a), n / (c - b),
           n / (d - c), n / (t - d), (e - t) * 1e3, (g - f) * 1e3, (p - g) * 1e3);
    return 0;
}
