/* The processes in C of tests/soak.
 *
 *     make BASE                                   makes a database with counters and fillers
 *     serve BASE LOG SEED OWNER THREADS SECONDS   opens the base for writing; threads change it and save after each change. Ends after
 *                                                 that time, or at SIGTERM if the time is 0
 *     share BASE LOG SEED OWNER MILLISECONDS [later]   makes calls on a shared base, with that limit of waits; `later` is NO_FLUSH
 *     watch BASE LOG SEED                         opens the base for reading again and again
 *     list BASE                                   prints all pairs in hex, as a reader
 *     data BASE                                   the same, from .dir and .pag alone, once the log is closed
 *
 * The first four words of a line of the log are `t OPERATION KEY BEGUN`, before a call. After the call follows `y ENDED WORD WORD` if it
 * succeeded; `n ENDED STATUS ERRNO TEXT` if it failed and changed nothing; and `u` with the same words if the change may be saved later. The
 * line `f TIME` is a save that failed on a full disk and is repeated, and `r BEGUN ENDED KEY=VALUE ..` what a reader has found. Times are
 * nanoseconds of the monotonic clock. */
#define _GNU_SOURCE
#include "boddurci_files.h"
#include <errno.h>
#include <fcntl.h>
#include <inttypes.h>
#include <pthread.h>
#include <signal.h>
#include <stdarg.h>
#include <stdio.h>
#include <stdlib.h>
#include <string.h>
#include <time.h>
#include <unistd.h>

enum { HOT = 4, OWN = 6, FILLERS = 200, FILLER = 60, THREADS_MOST = 16, MOST = 1008 };
enum { DAMAGED = 1 }; /* the version of a value that no caller has stored */

static volatile sig_atomic_t is_over;

/* A thread that makes calls, on a shared base or on a base that it has open. */
struct caller {
    boddurci_shared *shared;
    boddurci_base *base;
    boddurci *db; /* during a change of `base` */
    uint32_t counter, lease, seed, is_later;
    unsigned owner;
    int log;
    boddurci_fault fault;
};

static uint64_t now(void)
{
    struct timespec time;
    clock_gettime(CLOCK_MONOTONIC, &time);
    return (uint64_t)time.tv_sec * 1000000000 + (uint64_t)time.tv_nsec;
}

static void rest(long microseconds)
{
    nanosleep(&(struct timespec){0, microseconds * 1000}, NULL);
}

static uint32_t roll(uint32_t *seed, uint32_t below)
{
    *seed = *seed * 1664525u + 1013904223u;
    return (uint32_t)((uint64_t)(*seed >> 8) * below >> 24);
}

static void end_at(int number)
{
    (void)number;
    is_over = 1;
}

/* Ends the process with the fault on standard error. */
static void end_by(const boddurci_fault *fault)
{
    fprintf(stderr, "%u %d %s\n", (unsigned)fault->status, fault->system, fault->text);
    exit(2);
}

/* Appends a line to the log by one call, so that a kill leaves whole lines, or one that is cut off at the end. */
__attribute__((format(printf, 2, 3))) static void tell(const struct caller *it, const char *form, ...)
{
    char line[2000];
    va_list words;
    va_start(words, form);
    int length = vsnprintf(line, sizeof line, form, words);
    va_end(words);
    if (write(it->log, line, (size_t)length) != length)
        exit(3);
}

static int opened_log(const char *name, int number)
{
    char whole[300];
    snprintf(whole, sizeof whole, "%s.%d", name, number);
    int log = open(whole, O_WRONLY | O_CREAT | O_APPEND | O_CLOEXEC, 0600);
    return log >= 0 ? log : (exit(3), -1);
}

/* ---- values: a version, and bytes that depend on it */

static size_t make_value(uint64_t version, uint8_t *value)
{
    size_t length = 8 + version % 293;
    for (size_t i = 0; i < length; i++)
        value[i] = (uint8_t)(i < 8 ? version >> (8 * i) : version % 251 + i);
    return length;
}

static uint64_t version_of(const uint8_t *value, size_t length)
{
    uint8_t wanted[MOST];
    uint64_t version = 0;
    for (size_t i = 8; i > 0 && length >= 8; i--)
        version = version << 8 | value[i - 1];
    return length >= 8 && make_value(version, wanted) == length && memcmp(wanted, value, length) == 0 ? version : DAMAGED;
}

/* ---- steps on either kind of base */

static void begin(struct caller *it)
{
    it->fault = (boddurci_fault){0};
    if (it->base != NULL)
        it->db = boddurci_take(it->base);
}

static uint32_t saved(struct caller *it)
{
    uint32_t status;
    while ((status = boddurci_save(it->base, &it->fault)) == BODDURCI_FILE_FAILED && it->fault.system == ENOSPC && !is_over) {
        tell(it, "f %" PRIu64 "\n", now());
        rest(20000);
    }
    return status;
}

/* Saves the change of a base that is open, and writes the answer to the log. */
static void finish(struct caller *it, uint32_t status, uint64_t first, uint64_t second)
{
    int is_unsure = it->base != NULL ? status == BODDURCI_DONE : strstr(it->fault.text, "BASE.redo cannot be written") != NULL;
    if (it->base != NULL) {
        boddurci_give(it->base);
        it->db = NULL;
        it->fault.status = status;
        if (status == BODDURCI_DONE)
            status = saved(it);
    }
    if (status == BODDURCI_DONE || status == BODDURCI_MISSING)
        tell(it, "y %" PRIu64 " %" PRIu64 " %" PRIu64 "\n", now(), first, second);
    else
        tell(it, "%c %" PRIu64 " %u %d %s\n", is_unsure ? 'u' : 'n', now(), (unsigned)status, it->fault.system, it->fault.text);
}

struct run {
    const char *key;
    uint32_t program;
    const uint8_t *arg;
    size_t length, blank;
    uint64_t now, end, word;
};

static uint32_t run(struct caller *it, struct run *run)
{
    const uint8_t *key = (const uint8_t *)run->key;
    size_t length = strlen(run->key);
    if (it->shared != NULL)
        return boddurci_shared_run(it->shared, run->program, key, length, run->arg, run->length, 1, run->blank, run->now, &run->end,
                                   &run->word, &it->fault);
    return boddurci_run(it->db, run->program, key, length, run->arg, run->length, 1, run->blank, run->now, &run->end, &run->word);
}

static uint32_t increment(struct caller *it, const char *key, uint64_t *number)
{
    uint8_t arg[24];
    boddurci_add_argument(1, 0, UINT64_MAX, arg);
    struct run one = {key, it->counter, arg, sizeof arg, 8, 0, 0, 0};
    uint32_t status = run(it, &one);
    *number = one.end == 1 ? one.word : 0;
    return status;
}

/* ---- the calls */

static void add(struct caller *it, const char *key, const char *other)
{
    uint64_t first = 0, second = 0;
    tell(it, "t add %s %" PRIu64 " %s\n", key, now(), other);
    begin(it);
    uint32_t status = increment(it, key, &first);
    if (status == BODDURCI_DONE && *other != '-')
        status = increment(it, other, &second);
    finish(it, status, first, second);
}

static void put(struct caller *it, const char *key)
{
    uint8_t value[MOST];
    uint64_t begun = now(), version = begun / 1000;
    size_t length = make_value(version, value);
    tell(it, "t put %s %" PRIu64 " %" PRIu64 "\n", key, begun, version);
    begin(it);
    finish(it, it->shared != NULL ? boddurci_shared_store(it->shared, (const uint8_t *)key, strlen(key), value, length, 1, &it->fault)
                                  : boddurci_store(it->db, (const uint8_t *)key, strlen(key), value, length, 1), version, 0);
}

static void delete(struct caller *it, const char *key)
{
    tell(it, "t del %s %" PRIu64 " -\n", key, now());
    begin(it);
    finish(it, it->shared != NULL ? boddurci_shared_delete(it->shared, (const uint8_t *)key, strlen(key), &it->fault)
                                  : boddurci_delete(it->db, (const uint8_t *)key, strlen(key)), 0, 0);
}

static void get(struct caller *it, const char *key)
{
    uint8_t value[BODDURCI_VALUE_MOST];
    size_t length = 0;
    uint32_t status;
    tell(it, "t get %s %" PRIu64 " -\n", key, now());
    begin(it);
    if (it->shared != NULL)
        status = boddurci_shared_fetch(it->shared, (const uint8_t *)key, strlen(key), value, sizeof value, &length, &it->fault);
    else
        status = boddurci_fetch(it->db, (const uint8_t *)key, strlen(key), value, sizeof value, &length);
    finish(it, status, status == BODDURCI_DONE ? version_of(value, length) : 0, 0);
}

/* Requests a lease by the monotonic clock, in milliseconds. The duration of an owner is always the same, and 0 releases the lease. */
static void request(struct caller *it, const char *key, unsigned milliseconds)
{
    uint64_t begun = now();
    uint8_t arg[16] = {(uint8_t)it->owner, (uint8_t)(it->owner >> 8), 0, 0, 0, 0, 0, 0, (uint8_t)milliseconds, (uint8_t)(milliseconds >> 8)};
    struct run lease = {key, it->lease, arg, sizeof arg, 16, begun / 1000000, 0, 0};
    tell(it, "t %s %s %" PRIu64 " %u\n", milliseconds ? "take" : "free", key, begun, it->owner);
    begin(it);
    uint32_t status = run(it, &lease);
    finish(it, status, lease.end, lease.word);
}

static void flush(struct caller *it)
{
    tell(it, "t flush - %" PRIu64 " -\n", now());
    finish(it, boddurci_shared_flush(it->shared, &it->fault), 0, 0);
}

static void make_call(struct caller *it)
{
    char hot[20], own[40];
    uint32_t kind = roll(&it->seed, 20);
    snprintf(hot, sizeof hot, "n%u", roll(&it->seed, HOT));
    snprintf(own, sizeof own, "c%u.%u", it->owner, roll(&it->seed, OWN));
    if (kind < 9 || (kind < 12 && it->base == NULL))
        add(it, hot, "-");
    else if (kind < 12)
        add(it, "a", "b");
    else if (kind < 15)
        put(it, own);
    else if (kind < 16)
        delete(it, own);
    else if (kind < 17 || (kind < 18 && !it->is_later))
        get(it, own);
    else if (kind < 18)
        flush(it);
    else
        request(it, kind < 19 ? "kept" : "given", kind == 19 && roll(&it->seed, 2) ? 0 : 20 + it->owner % 7 * 20);
}

static void *make_calls(void *caller)
{
    struct caller *it = caller;
    while (!is_over) {
        make_call(it);
        rest(roll(&it->seed, 5000));
    }
    return NULL;
}

/* ---- the processes */

static void serve(char **words)
{
    static struct caller callers[THREADS_MOST];
    pthread_t threads[THREADS_MOST];
    boddurci_fault fault;
    int count = atoi(words[4]);
    boddurci_base *base = boddurci_open_files_within(words[0], 0, 10000, &fault);
    uint64_t until = now() + (uint64_t)(atof(words[5]) * 1e9);
    if (base == NULL)
        end_by(&fault);
    for (int i = 0; i < count; i++) {
        callers[i] = (struct caller){.base = base, .seed = (uint32_t)atol(words[2]) + (uint32_t)i, .owner = (unsigned)(atoi(words[3]) + i)};
        callers[i].log = opened_log(words[1], i);
        boddurci *db = boddurci_take(base);
        fault.status = boddurci_stock(db, "bounded_counter", &callers[i].counter) | boddurci_stock(db, "lease", &callers[i].lease);
        boddurci_give(base);
        if (fault.status != BODDURCI_DONE || pthread_create(&threads[i], NULL, make_calls, &callers[i]) != 0)
            end_by(&fault);
    }
    while (!is_over && (atof(words[5]) == 0 || now() < until))
        rest(10000);
    is_over = 1;
    for (int i = 0; i < count; i++)
        pthread_join(threads[i], NULL);
    boddurci_close_files(base);
}

static void share(int count, char **words)
{
    struct caller it = {.seed = (uint32_t)atol(words[2]), .owner = (unsigned)atoi(words[3]), .is_later = count > 5};
    it.log = opened_log(words[1], 0);
    it.shared = boddurci_open_shared(words[0], it.is_later ? BODDURCI_NO_FLUSH : 0, &it.fault);
    if (it.shared == NULL)
        end_by(&it.fault);
    boddurci_shared_wait(it.shared, atol(words[4]));
    it.fault.status = boddurci_shared_stock(it.shared, "bounded_counter", &it.counter) | boddurci_shared_stock(it.shared, "lease", &it.lease);
    if (it.fault.status != BODDURCI_DONE)
        end_by(&it.fault);
    make_calls(&it);
    boddurci_close_shared(it.shared);
}

/* Calls `what` for each pair. */
static void visit(boddurci *db, void (*what)(const uint8_t *, size_t, const uint8_t *, size_t, void *), void *with)
{
    uint8_t key[MOST], value[BODDURCI_VALUE_MOST];
    size_t key_length, value_length;
    boddurci_cursor cursor;
    boddurci_fault fault = {.status = boddurci_first(db, &cursor)};
    while (fault.status == BODDURCI_DONE) {
        fault.status = boddurci_next(db, &cursor, key, sizeof key, &key_length, value, sizeof value, &value_length);
        if (fault.status == BODDURCI_DONE)
            what(key, key_length, value, value_length, with);
    }
    if (fault.status != BODDURCI_MISSING)
        end_by(&fault);
}

static void print_pair(const uint8_t *key, size_t key_length, const uint8_t *value, size_t value_length, void *unused)
{
    (void)unused;
    for (size_t i = 0; i < key_length; i++)
        printf("%02x", key[i]);
    putchar(' ');
    for (size_t i = 0; i < value_length; i++)
        printf("%02x", value[i]);
    putchar('\n');
}

static void list(const char *name)
{
    boddurci_fault fault;
    boddurci_base *base = boddurci_open_files_within(name, BODDURCI_READ_ONLY, 10000, &fault);
    if (base == NULL)
        end_by(&fault);
    visit(boddurci_take(base), print_pair, NULL);
    boddurci_give(base);
    boddurci_close_files(base);
}

/* What a reader has found: the fillers are counted, and of the other pairs only counters are kept. */
struct found {
    char line[1500];
    size_t length, fillers;
};

static void note_pair(const uint8_t *key, size_t key_length, const uint8_t *value, size_t value_length, void *found)
{
    struct found *it = found;
    uint64_t number = 0;
    for (size_t i = value_length < 8 ? value_length : 8; i > 0; i--)
        number = number << 8 | value[i - 1];
    it->fillers += key_length > 1 && key[0] == 'p' && value_length == FILLER;
    if (value_length == 8 && (key[0] == 'n' || key[0] == 'a' || key[0] == 'b') && it->length < 1000)
        it->length += (size_t)sprintf(it->line + it->length, " %.*s=%" PRIu64, key_length < 20 ? (int)key_length : 20, (const char *)key, number);
}

static void watch(char **words)
{
    struct caller it = {.seed = (uint32_t)atol(words[2]), .log = opened_log(words[1], 0)};
    while (!is_over) {
        struct found found = {.length = 0};
        uint64_t begun = now();
        boddurci_base *base = boddurci_open_files_within(words[0], BODDURCI_READ_ONLY, 5000, &it.fault);
        if (base != NULL) {
            visit(boddurci_take(base), note_pair, &found);
            boddurci_give(base);
            boddurci_close_files(base);
            tell(&it, "r %" PRIu64 " %" PRIu64 " fillers=%zu%s\n", begun, now(), found.fillers, found.line);
        } else if (!is_over) {
            tell(&it, "t open - %" PRIu64 " -\nn %" PRIu64 " %u %d %s\n", begun, now(), (unsigned)it.fault.status, it.fault.system, it.fault.text);
        }
        rest(20000 + roll(&it.seed, 100000));
    }
}

static uint8_t *bytes_of(const char *base, const char *ending, size_t *length)
{
    char name[300];
    static const size_t most = 1 << 26;
    uint8_t *bytes = malloc(most);
    snprintf(name, sizeof name, "%s%s", base, ending);
    FILE *file = fopen(name, "rb");
    *length = file != NULL && bytes != NULL ? fread(bytes, 1, most, file) : 0;
    if (file != NULL)
        fclose(file);
    return bytes;
}

static void print_data(const char *name)
{
    boddurci db = BODDURCI_CLOSED;
    boddurci_fault fault;
    size_t dir, pag, length = 0;
    boddurci_base *base = boddurci_open_files_within(name, 0, 10000, &fault);
    if (base == NULL)
        end_by(&fault);
    boddurci_close_files(base);
    uint8_t *dir_bytes = bytes_of(name, ".dir", &dir), *pag_bytes = bytes_of(name, ".pag", &pag);
    fault.status = boddurci_open(&db, dir_bytes, dir, pag_bytes, pag, 0, 0, (uint8_t *)fault.text, sizeof fault.text - 1, &length);
    fault.text[length < sizeof fault.text ? length : 0] = 0;
    if (fault.status != BODDURCI_DONE)
        end_by(&fault);
    visit(&db, print_pair, NULL);
    boddurci_close(&db);
    free(dir_bytes);
    free(pag_bytes);
}

static void make_database(const char *name)
{
    static const char *const counters[] = {"n0", "n1", "n2", "n3", "a", "b"};
    static const uint8_t zeros[8], filler[FILLER] = "a filler";
    boddurci_fault fault;
    char key[20];
    boddurci_base *base = boddurci_open_files(name, 0, &fault);
    boddurci *db = boddurci_take(base);
    uint32_t status = base != NULL ? BODDURCI_DONE : fault.status;
    for (size_t i = 0; i < sizeof counters / sizeof *counters; i++)
        status |= boddurci_store(db, (const uint8_t *)counters[i], strlen(counters[i]), zeros, sizeof zeros, 1);
    for (int i = 0; i < FILLERS; i++)
        status |= boddurci_store(db, (const uint8_t *)key, (size_t)sprintf(key, "p%d", i), filler, sizeof filler, 1);
    boddurci_give(base);
    if (status != BODDURCI_DONE || boddurci_save(base, &fault) != BODDURCI_DONE)
        end_by(&fault);
    boddurci_close_files(base);
}

int main(int count, char **words)
{
    const char *what = count > 2 ? words[1] : "";
    signal(SIGTERM, end_at);
    if (strcmp(what, "make") == 0)
        make_database(words[2]);
    else if (strcmp(what, "serve") == 0 && count > 7)
        serve(words + 2);
    else if (strcmp(what, "share") == 0 && count > 6)
        share(count - 2, words + 2);
    else if (strcmp(what, "watch") == 0 && count > 4)
        watch(words + 2);
    else if (strcmp(what, "list") == 0)
        list(words[2]);
    else if (strcmp(what, "data") == 0)
        print_data(words[2]);
    else
        return 4;
    return 0;
}
