/* Tests shared bases. tests/shared builds it with its parts, c_shared_*.c, and runs it.
 *
 *     calls FOLDER [later]         tests the calls: against a model, with other programs, other users, forks and threads; with `later` tests
 *                                  calls with NO_FLUSH, without writing the data files directly
 *     count BASE LOG SEED [later]  increments counters until it is killed, and appends each answer to the log; `later` is NO_FLUSH, with a
 *                                  flush now and then
 *     change BASE [later]          makes the changes on standard input, and prints a line after each
 *     mix BASE                     the same by two handles, one with NO_FLUSH: see `mix` below
 *     fetch BASE KEY               prints the value of a key
 *     list BASE                    prints all pairs, as a reader
 *     hold BASE MILLISECONDS       opens the base for writing, saves a pair, and closes it after that time
 *     close BASE                   opens the base for writing, and closes it */
#define _GNU_SOURCE
#include "c_shared.h"
#include <fcntl.h>
#include <sys/file.h>
#include <sys/stat.h>
#include <time.h>
#include <unistd.h>

boddurci_fault fault;
unsigned long looked;
uint32_t more_flags;

boddurci_shared *opened(const char *name, uint32_t flags)
{
    boddurci_shared *shared = boddurci_open_shared(name, flags | more_flags, &fault);
    EXPECT(shared != NULL && fault.status == BODDURCI_DONE);
    return shared;
}

int fails(const char *name, uint32_t flags, uint32_t status)
{
    boddurci_shared *shared = boddurci_open_shared(name, flags, &fault);
    boddurci_close_shared(shared);
    return shared == NULL && fault.status == status && fault.text[0] != 0;
}

/* Runs bounded_counter without bounds. Returns the new number, or 0 if the call fails. */
uint64_t increment_with(boddurci_shared *shared, uint32_t counter, const char *key, boddurci_fault *into)
{
    uint8_t arg[24] = {1};
    uint64_t end = 0, word = 0;
    memset(arg + 16, 255, 8);
    uint32_t status = boddurci_shared_run(shared, counter, (const uint8_t *)key, strlen(key), arg, sizeof arg, 1, 8, 0, &end, &word, into);
    return status == BODDURCI_DONE && end == 1 ? word : 0;
}

uint64_t increment(boddurci_shared *shared, uint32_t counter, const char *key)
{
    return increment_with(shared, counter, key, &fault);
}

uint32_t counter_of(boddurci_shared *shared)
{
    uint32_t counter = 77;
    EXPECT(boddurci_shared_stock(shared, "bounded_counter", &counter) == BODDURCI_DONE);
    return counter;
}

uint32_t store(boddurci_shared *shared, const char *key, const char *value)
{
    return boddurci_shared_store(shared, (const uint8_t *)key, strlen(key), (const uint8_t *)value, strlen(value), 1, &fault);
}

/* Returns whether a key has this value, or is missing if `value` is NULL. */
int has(boddurci_shared *shared, const char *key, const char *value)
{
    uint8_t room[BODDURCI_VALUE_MOST];
    size_t length = 0;
    uint32_t status = boddurci_shared_fetch(shared, (const uint8_t *)key, strlen(key), room, sizeof room, &length, &fault);
    if (value == NULL)
        return status == BODDURCI_MISSING && fault.status == BODDURCI_MISSING;
    return status == BODDURCI_DONE && fault.status == BODDURCI_DONE && length == strlen(value) && memcmp(room, value, length) == 0;
}

/* ---- files */

struct bytes read_file(const char *base, const char *ending)
{
    char name[300];
    struct stat found;
    struct bytes bytes = {calloc(1, 1), 0};
    snprintf(name, sizeof name, "%s%s", base, ending);
    int file = open(name, O_RDONLY);
    if (file < 0)
        return bytes;
    EXPECT(fstat(file, &found) == 0);
    bytes.at = realloc(bytes.at, (size_t)found.st_size + 1);
    EXPECT(read(file, bytes.at, (size_t)found.st_size) == found.st_size);
    bytes.length = (size_t)found.st_size;
    close(file);
    return bytes;
}

void write_file(const char *base, const char *ending, const uint8_t *bytes, size_t length)
{
    char name[300];
    snprintf(name, sizeof name, "%s%s", base, ending);
    int file = open(name, O_RDWR | O_CREAT, 0644);
    EXPECT(file >= 0 && pwrite(file, bytes, length, 0) == (ssize_t)length && ftruncate(file, (off_t)length) == 0);
    close(file);
}

int is_marked(const char *base)
{
    struct bytes redo = read_file(base, ".redo");
    int marked = redo.length != 0 && redo.at[0] == 1;
    free(redo.at);
    return marked;
}

/* ---- locks, time and numbers */

int taken(const char *name, int how)
{
    int file = open(name, O_RDWR);
    EXPECT(file >= 0 && flock(file, how) == 0);
    return file;
}

void rest(void)
{
    nanosleep(&(struct timespec){0, 20000000}, NULL);
}

uint32_t seed;

uint32_t roll(uint32_t below)
{
    seed = seed * 1664525u + 1013904223u;
    return (uint32_t)((uint64_t)(seed >> 8) * below >> 24);
}

/* ---- the calls */

/* Makes the tests that read or write the data files directly. */
static void test_data(void)
{
    test_model("model", 0, 60, 3000);
    test_model("many", 0, 700, 3000);
    test_model("wide", BODDURCI_WIDE, 300, 1500);
    test_model("unsigned", BODDURCI_UNSIGNED_KEYS | BODDURCI_NO_WAIT, 40, 1000);
    test_model("later", BODDURCI_NO_FLUSH, 700, 3000);
    test_model("wide_later", BODDURCI_NO_FLUSH | BODDURCI_WIDE, 60, 2000);
    test_clock();
    test_sizes();
    test_files();
    test_targets();
    test_others();
}

static int calls(const char *folder)
{
    EXPECT(chdir(folder) == 0 && mkdir("read", 0755) == 0 && mkdir("folder", 0755) == 0 && chmod(".", 0755) == 0);
    if (more_flags == 0)
        test_data();
    test_programs();
    test_adding();
    test_names();
    test_boots();
    test_lost_pages();
    test_notes();
    test_readers();
    test_group();
    test_limit();
    test_locks();
    test_no_locks();
    test_services();
    test_waiting();
    test_signals();
    test_replaced();
    test_swapped();
    test_memory();
    test_replaced_locks();
    test_long();
    test_forks();
    test_orphans();
    test_orphans_of_threads();
    test_lost();
    test_threads();
    test_folders();
    printf("%lu checks\n", looked);
    return 0;
}

/* ---- programs for tests/shared */

static int count(const char *base, const char *log, unsigned start, uint32_t flags)
{
    char key[20], line[60];
    int file = open(log, O_WRONLY | O_APPEND | O_CREAT, 0600);
    boddurci_shared *shared = boddurci_open_shared(base, flags, &fault);
    if (file < 0 || shared == NULL)
        return fprintf(stderr, "c_shared: %s\n", fault.text), 2;
    uint32_t counter = counter_of(shared);
    boddurci_shared_wait(shared, 30000);
    for (seed = start;;) {
        sprintf(key, "k%u", (unsigned)roll(roll(2) ? 5 : 200));
        uint64_t made = increment(shared, counter, key);
        if (made == 0)
            return fprintf(stderr, "c_shared: %s\n", fault.text), 2;
        int length = snprintf(line, sizeof line, "%s %llu\n", key, (unsigned long long)made);
        if (write(file, line, (size_t)length) != length)
            return 2;
        if (flags != 0 && roll(200) == 0 && boddurci_shared_flush(shared, &fault) != BODDURCI_DONE)
            return fprintf(stderr, "c_shared: %s\n", fault.text), 2;
    }
}

static size_t from_hex(char *text)
{
    size_t length = text != NULL ? strlen(text) / 2 : 0;
    for (size_t i = 0; i < length; i++) {
        unsigned byte;
        sscanf(text + 2 * i, "%2x", &byte);
        text[i] = (char)byte;
    }
    return length;
}

static void to_hex(const uint8_t *bytes, size_t length, char end)
{
    for (size_t i = 0; i < length; i++)
        printf("%02x", bytes[i]);
    putchar(end);
}

/* Makes the changes on the lines `store KEY VALUE` and `delete KEY`, in hex. */
static int change(const char *base, uint32_t flags)
{
    char line[20000];
    boddurci_shared *shared = boddurci_open_shared(base, flags, &fault);
    uint32_t status = shared != NULL ? BODDURCI_DONE : fault.status;
    while (status == BODDURCI_DONE && fgets(line, sizeof line, stdin) != NULL) {
        line[strcspn(line, "\n")] = 0;
        char *kind = strtok(line, " "), *key = strtok(NULL, " "), *value = strtok(NULL, " ");
        size_t key_length = from_hex(key), value_length = from_hex(value);
        if (strcmp(kind, "store") == 0)
            status = boddurci_shared_store(shared, (uint8_t *)key, key_length, (uint8_t *)(value != NULL ? value : ""), value_length, 1, &fault);
        else
            status = boddurci_shared_delete(shared, (uint8_t *)key, key_length, &fault);
        const char *told = fault.system != 0 ? "pending\n" : "done\n";
        if (status == BODDURCI_DONE && write(1, told, strlen(told)) < 0)
            return 2;
    }
    boddurci_close_shared(shared);
    if (status != BODDURCI_DONE)
        fprintf(stderr, "c_shared: %u %s\n", (unsigned)status, fault.text);
    return status == BODDURCI_DONE ? 0 : 2;
}

/* Makes the change of a line, `store KEY VALUE` or `delete KEY` in hex, or the fetch of `fetch KEY`. */
static uint32_t make(boddurci_shared *shared, char *line)
{
    static uint8_t room[BODDURCI_VALUE_MOST];
    char *kind = strtok(line, " "), *key = strtok(NULL, " "), *value = strtok(NULL, " ");
    size_t key_length = from_hex(key), value_length = from_hex(value), length;
    if (strcmp(kind, "fetch") == 0)
        return boddurci_shared_fetch(shared, (uint8_t *)key, key_length, room, sizeof room, &length, &fault);
    if (strcmp(kind, "delete") == 0)
        return boddurci_shared_delete(shared, (uint8_t *)key, key_length, &fault);
    return boddurci_shared_store(shared, (uint8_t *)key, key_length, (uint8_t *)(value != NULL ? value : ""), value_length, 1, &fault);
}

/* Makes calls by two handles, as two processes would. A line that begins with `now` is a call of the first handle, which flushes its changes,
 * and `later` one of the second, which has NO_FLUSH; `flush` flushes. Prints after each line the kind of the handle, or `failed`. The last
 * line is `end`. */
static int mix(const char *base)
{
    static char line[20000];
    boddurci_shared *now = boddurci_open_shared(base, 0, &fault), *later = boddurci_open_shared(base, BODDURCI_NO_FLUSH, &fault);
    if (now == NULL || later == NULL)
        return 2;
    while (fgets(line, sizeof line, stdin) != NULL) {
        line[strcspn(line, "\n")] = 0;
        int is_now = strncmp(line, "now ", 4) == 0, is_flush = strcmp(line, "flush") == 0;
        uint32_t status = is_flush ? boddurci_shared_flush(later, &fault) : make(is_now ? now : later, strchr(line, ' ') + 1);
        const char *told = status > BODDURCI_MISSING ? "failed\n" : is_flush || is_now ? "now\n" : "later\n";
        if (write(1, told, strlen(told)) < 0)
            return 2;
        if (status > BODDURCI_MISSING)
            fprintf(stderr, "c_shared: %u %s\n", (unsigned)status, fault.text);
    }
    boddurci_close_shared(later);
    boddurci_close_shared(now);
    return write(1, "end\n", 4) == 4 ? 0 : 2;
}

static int fetch(const char *base, char *key)
{
    uint8_t value[BODDURCI_VALUE_MOST];
    size_t length = 0, key_length = from_hex(key);
    boddurci_shared *shared = boddurci_open_shared(base, 0, &fault);
    uint32_t status = boddurci_shared_fetch(shared, (uint8_t *)key, key_length, value, sizeof value, &length, &fault);
    if (status == BODDURCI_DONE)
        to_hex(value, length, '\n');
    else
        puts(status == BODDURCI_MISSING ? "missing" : fault.text);
    boddurci_close_shared(shared);
    return status == BODDURCI_DONE || status == BODDURCI_MISSING ? 0 : 2;
}

static int list(const char *base)
{
    static uint8_t key[9000], value[9000];
    size_t key_length, value_length;
    boddurci_cursor cursor;
    boddurci_base *reader = boddurci_open_files(base, BODDURCI_READ_ONLY, &fault);
    boddurci *db = boddurci_take(reader);
    if (boddurci_first(db, &cursor) != BODDURCI_DONE)
        return fprintf(stderr, "c_shared: %s\n", fault.text), 2;
    while (boddurci_next(db, &cursor, key, sizeof key, &key_length, value, sizeof value, &value_length) == BODDURCI_DONE) {
        to_hex(key, key_length, ' ');
        to_hex(value, value_length, '\n');
    }
    boddurci_give(reader);
    boddurci_close_files(reader);
    return 0;
}

static int hold(const char *base, long milliseconds)
{
    boddurci_base *service = boddurci_open_files(base, 0, &fault);
    if (service == NULL)
        return fprintf(stderr, "c_shared: %s\n", fault.text), 2;
    boddurci_store(boddurci_take(service), BYTES("service"), (const uint8_t *)&milliseconds, sizeof milliseconds, 1);
    boddurci_give(service);
    uint32_t status = boddurci_save(service, &fault);
    nanosleep(&(struct timespec){milliseconds / 1000, milliseconds % 1000 * 1000000}, NULL);
    boddurci_close_files(service);
    return status == BODDURCI_DONE ? 0 : 2;
}

int main(int count_of_words, char **words)
{
    const char *what = count_of_words > 2 ? words[1] : "";
    if (strcmp(what, "calls") == 0)
        return more_flags = count_of_words > 3 ? BODDURCI_NO_FLUSH : 0, calls(words[2]);
    if (strcmp(what, "count") == 0 && count_of_words > 4)
        return count(words[2], words[3], (unsigned)atol(words[4]), count_of_words > 5 ? BODDURCI_NO_FLUSH : 0);
    if (strcmp(what, "mix") == 0)
        return mix(words[2]);
    if (strcmp(what, "change") == 0)
        return change(words[2], count_of_words > 3 ? BODDURCI_NO_FLUSH : 0);
    if (strcmp(what, "fetch") == 0 && count_of_words > 3)
        return fetch(words[2], words[3]);
    if (strcmp(what, "list") == 0)
        return list(words[2]);
    if (strcmp(what, "close") == 0) {
        boddurci_base *service = boddurci_open_files(words[2], 0, &fault);
        boddurci_close_files(service);
        return service != NULL ? 0 : 2;
    }
    if (strcmp(what, "hold") == 0 && count_of_words > 3)
        return hold(words[2], atol(words[3]));
    return 4;
}
