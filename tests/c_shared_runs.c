/* Tests programs on a shared base, the time of a run, and additions to a number. Part of tests/c_shared.c. */
#define _GNU_SOURCE
#include "c_shared.h"
#include <fcntl.h>
#include <sys/wait.h>
#include <time.h>
#include <unistd.h>

void test_programs(void)
{
    static const char source[] = "mov r0, 7\nexit\n";
    uint8_t image[100], text[100];
    size_t length, line, text_length, unit = 5;
    uint32_t number = 9, other = 9;
    uint64_t end = 0, word;
    boddurci_shared *shared = opened("programs", 0);
    EXPECT(boddurci_assemble(BYTES(source), image, sizeof image, &length, &line, text, sizeof text, &text_length) == BODDURCI_DONE);
    EXPECT(boddurci_shared_submit(shared, image, length, &number, &unit, text, sizeof text, &text_length) == BODDURCI_DONE && number == 0);
    EXPECT(boddurci_shared_submit(shared, image, length, &other, &unit, text, sizeof text, &text_length) == BODDURCI_DONE && other == 0);
    EXPECT(boddurci_shared_submit(shared, image, 8, &other, &unit, text, sizeof text, &text_length) == BODDURCI_REFUSED && text_length != 0);
    EXPECT(boddurci_shared_submit(shared, image, 7, &other, &unit, text, sizeof text, &text_length) == BODDURCI_REFUSED);
    EXPECT(boddurci_shared_stock(shared, "counter", &other) == BODDURCI_DONE && other == 1);
    EXPECT(boddurci_shared_stock(shared, "nothing", &other) == BODDURCI_NO_STOCK && other == 1);
    EXPECT(boddurci_shared_run(shared, 0, BYTES("a"), BODDURCI_NO_BYTES, 1, 8, 0, &end, &word, &fault) == BODDURCI_DONE && end == 7);
    EXPECT(access("programs.pag", F_OK) != 0 && has(shared, "a", NULL));
    EXPECT(boddurci_shared_run(shared, 1, BYTES("a"), BODDURCI_NO_BYTES, 0, 0, 0, &end, &word, &fault) == BODDURCI_MISSING && end == 0);
    end = 9;
    EXPECT(boddurci_shared_run(shared, 2, BYTES("a"), BODDURCI_NO_BYTES, 1, 8, 0, &end, &word, &fault) == BODDURCI_NO_PROGRAM && end == 9);
    boddurci_close_shared(shared);
}

/* ---- the time of a run */

/* A program that stores the time of the run, unless it is earlier than the stored time (code 5). */
static const char rising[] = "    jlt r2, 8, fell\n    mov r6, r1\n    call 2\n    ldxdw r2, [r6]\n    jlt r0, r2, fell\n    stxdw [r6], r0\n"
                             "    mov r1, r0\n    call 1\n    mov r0, 1\n    exit\nfell:\n    mov r0, 5\n    exit\n";

static uint32_t submit_rising(boddurci_shared *shared)
{
    uint8_t image[400], text[100];
    size_t length, line, text_length, unit;
    uint32_t number = 9;
    EXPECT(boddurci_assemble(BYTES(rising), image, sizeof image, &length, &line, text, sizeof text, &text_length) == BODDURCI_DONE);
    EXPECT(boddurci_shared_submit(shared, image, length, &number, &unit, text, sizeof text, &text_length) == BODDURCI_DONE);
    return number;
}

/* Runs the program with the time of the clock, and returns the stored time, or 0 if the time fell or the call failed. */
static uint64_t time_by(boddurci_shared *shared, uint32_t program, const char *key, uint64_t per_second)
{
    uint64_t end = 0, word = 0;
    uint32_t status = boddurci_shared_run_now(shared, program, (const uint8_t *)key, strlen(key), BODDURCI_NO_BYTES, 1, 8, per_second, &end,
                                              &word, &fault);
    return status == BODDURCI_DONE && end == 1 ? word : 0;
}

static uint64_t nanoseconds(void)
{
    struct timespec now;
    clock_gettime(CLOCK_REALTIME, &now);
    return (uint64_t)now.tv_sec * 1000000000 + (uint64_t)now.tv_nsec;
}

/* Returns whether a run gets the time of the clock, in units of which a nanosecond has 1 / `unit`. */
static int tells_time(boddurci_shared *shared, uint32_t program, const char *key, uint64_t per_second, uint64_t unit)
{
    uint64_t before = nanoseconds() / unit, time = time_by(shared, program, key, per_second);
    return before <= time && time <= nanoseconds() / unit;
}

/* Makes the page of a base other than a save leaves it, by a byte between its offsets and its pairs. */
static void spoil(const char *pages)
{
    int file = open(pages, O_WRONLY);
    EXPECT(file >= 0 && pwrite(file, "x", 1, 600) == 1 && close(file) == 0);
}

/* The times of four processes that run the program on one key without a pause never fall. */
static void times_rise(boddurci_shared *shared, uint32_t program)
{
    enum { CHILDREN = 4, RUNS = 100 };
    pid_t children[CHILDREN];
    for (int i = 0; i < CHILDREN; i++) {
        children[i] = fork();
        if (children[i] == 0) {
            int runs = 0;
            while (runs < RUNS && time_by(shared, program, "all", 1000000000) != 0)
                runs++;
            _exit(runs == RUNS ? 0 : 1);
        }
    }
    for (int i = 0; i < CHILDREN; i++) {
        int status;
        EXPECT(waitpid(children[i], &status, 0) == children[i] && status == 0);
    }
}

void test_clock(void)
{
    enum { BILLION = 1000000000 };
    uint64_t end = 9, word = 9;
    boddurci_shared *shared = opened("clock", 0);
    uint32_t program = submit_rising(shared);
    EXPECT(tells_time(shared, program, "seconds", 1, BILLION) && tells_time(shared, program, "zero", 0, BILLION));
    EXPECT(tells_time(shared, program, "thousandths", 1000, BILLION / 1000) && tells_time(shared, program, "all", BILLION, 1));
    EXPECT(tells_time(shared, program, "most", UINT64_MAX, 1));
    /* The next call is made on the whole database. */
    spoil("clock.pag");
    EXPECT(tells_time(shared, program, "whole", BILLION, 1));
    times_rise(shared, program);
    EXPECT(boddurci_shared_run_now(shared, program, BYTES("none"), BODDURCI_NO_BYTES, 0, 0, 1, &end, &word, NULL) == BODDURCI_MISSING);
    EXPECT(end == 0 && word == 0);
    end = 9;
    EXPECT(boddurci_shared_run_now(shared, 7, BYTES("all"), BODDURCI_NO_BYTES, 1, 8, 1, &end, &word, &fault) == BODDURCI_NO_PROGRAM);
    EXPECT(end == 9 && fault.status == BODDURCI_NO_PROGRAM);
    boddurci_close_shared(shared);
}

/* ---- additions */

/* Adds to the number of a key, and returns whether the result is this code and this number. */
static int adds(boddurci_shared *shared, const char *key, int64_t amount, uint64_t greatest, uint64_t code, uint64_t sum)
{
    uint64_t end = 99, number = 99;
    uint32_t status = boddurci_shared_add(shared, (const uint8_t *)key, strlen(key), amount, 0, greatest, &end, &number, &fault);
    return status == BODDURCI_DONE && fault.status == BODDURCI_DONE && fault.system == 0 && end == code && number == sum;
}

/* Tests additions to a number. The model tests more of them. */
void test_adding(void)
{
    static const uint8_t key[1001];
    uint64_t end = 9, number = 9;
    boddurci_shared *shared = opened("adding", 0), *other = opened("adding", BODDURCI_NO_WAIT);
    EXPECT(adds(shared, "a", -1, 7, 0, 0) && access("adding.pag", F_OK) != 0 && adds(shared, "a", 5, 7, 1, 5));
    EXPECT(adds(other, "a", 3, 7, 0, 5) && adds(other, "a", -4, 7, 1, 1) && increment(shared, counter_of(shared), "a") == 2);
    EXPECT(adds(shared, "a", INT64_MAX, UINT64_MAX, 1, (uint64_t)INT64_MAX + 2) && adds(other, "a", INT64_MIN, UINT64_MAX, 1, 1));
    EXPECT(store(shared, "short", "1234567") == BODDURCI_DONE && adds(other, "short", 1, UINT64_MAX, 4, 0));
    EXPECT(has(shared, "short", "1234567"));
    EXPECT(store(shared, "long", "AAAAAAAAann") == BODDURCI_DONE && adds(other, "long", 1, UINT64_MAX, 1, 0x4141414141414142));
    EXPECT(has(shared, "long", "BAAAAAAAann"));
    EXPECT(boddurci_shared_add(shared, key, sizeof key, 1, 0, 7, &end, &number, &fault) == BODDURCI_PAIR_TOO_LARGE);
    EXPECT(fault.status == BODDURCI_PAIR_TOO_LARGE && end == 9 && number == 9);
    boddurci_base *service = boddurci_open_files("adding", 0, &fault);
    EXPECT(boddurci_shared_add(other, BYTES("a"), 1, 0, 7, &end, &number, &fault) == BODDURCI_OPEN_HERE && end == 9 && number == 9);
    boddurci_close_files(service);
    EXPECT(boddurci_shared_add(other, BYTES("a"), 1, 0, 7, &end, &number, NULL) == BODDURCI_DONE && end == 1 && number == 2);
    boddurci_close_shared(other);
    boddurci_close_shared(shared);
}
