/* Tests changes of shared bases that are executed before the locks are taken (bindings/c/boddurci_shared_ahead.c). tests/unflushed builds and
 * runs it, with a folder as the argument. The linker replaces five functions of the library by those below (--wrap), so that other calls
 * come between the execution of a command and the locks, and reads without locks get wrong bytes. */
#define _GNU_SOURCE
#include "boddurci_shared_base.h"
#include <fcntl.h>
#include <signal.h>
#include <stdio.h>
#include <stdlib.h>
#include <string.h>
#include <sys/file.h>
#include <sys/mman.h>
#include <sys/stat.h>
#include <sys/wait.h>
#include <unistd.h>

#define BYTES(text) ((const uint8_t *)(text)), (sizeof(text) - 1)

/* Where the records of a log begin. */
enum { RECORDS = 4096 };

static boddurci_fault fault;
static unsigned long looked;

#define EXPECT(what)                                                                                                               \
    do {                                                                                                                           \
        looked++;                                                                                                                  \
        if (!(what)) {                                                                                                             \
            fprintf(stderr, "c_ahead.c:%d: not so: %s (%s)\n", __LINE__, #what, fault.text);                                       \
            exit(1);                                                                                                               \
        }                                                                                                                          \
    } while (0)

/* ---- the library */

static void (*between)(void);               /* is called once, before the next change takes its locks */
static void (*meanwhile)(void);             /* is called once, after some reads of an execution ahead */
static unsigned reads;                      /* the number of these reads */
static unsigned long meanwhiles;            /* the number of its calls */
static int executions, takes;               /* of the last change of `one` */
static int is_ahead;                        /* a command is being executed ahead */
static unsigned damage;                     /* reads without locks get wrong bytes, one in this number, or none if it is 0 */
static unsigned long damaged;
static uint64_t seed = 7;

static unsigned roll(unsigned sides)
{
    seed = seed * 6364136223846793005u + 1442695040888963407u;
    return (unsigned)(seed >> 33) % sides;
}

uint32_t __real_boddurci_take_call(struct boddurci_place *, int, int64_t, boddurci_fault *);
uint32_t __wrap_boddurci_take_call(struct boddurci_place *, int, int64_t, boddurci_fault *);
uint32_t __wrap_boddurci_take_call(struct boddurci_place *place, int reads, int64_t milliseconds, boddurci_fault *into)
{
    void (*now)(void) = between;
    if (!reads && now != NULL) {
        int before = executions;
        between = NULL;
        now();
        executions = before;
        takes = 0;
    }
    return __real_boddurci_take_call(place, reads, milliseconds, into);
}

void __real_boddurci_work_ahead(boddurci_shared *, const struct boddurci_command *);
void __wrap_boddurci_work_ahead(boddurci_shared *, const struct boddurci_command *);
void __wrap_boddurci_work_ahead(boddurci_shared *shared, const struct boddurci_command *command)
{
    executions = takes = 0;
    is_ahead = 1;
    __real_boddurci_work_ahead(shared, command);
    is_ahead = 0;
}

uint32_t __real_boddurci_execute(boddurci_shared *, struct boddurci_command *, const struct boddurci_part *, struct boddurci_planned *, int *);
uint32_t __wrap_boddurci_execute(boddurci_shared *, struct boddurci_command *, const struct boddurci_part *, struct boddurci_planned *, int *);
uint32_t __wrap_boddurci_execute(boddurci_shared *shared, struct boddurci_command *command, const struct boddurci_part *part,
                                 struct boddurci_planned *planned, int *is_whole)
{
    executions++;
    return __real_boddurci_execute(shared, command, part, planned, is_whole);
}

int __real_boddurci_take_ahead(boddurci_shared *, const struct boddurci_part *, struct boddurci_command *, struct boddurci_planned *,
                               uint32_t *);
int __wrap_boddurci_take_ahead(boddurci_shared *, const struct boddurci_part *, struct boddurci_command *, struct boddurci_planned *,
                               uint32_t *);
int __wrap_boddurci_take_ahead(boddurci_shared *shared, const struct boddurci_part *part, struct boddurci_command *command,
                               struct boddurci_planned *planned, uint32_t *status)
{
    takes = __real_boddurci_take_ahead(shared, part, command, planned, status);
    return takes;
}

static void call_meanwhile(void)
{
    void (*now)(void) = meanwhile;
    int executed = executions, took = takes;
    const boddurci_fault was = fault;
    meanwhile = NULL;
    is_ahead = 0;
    now();
    fault = was;
    executions = executed;
    takes = took;
    is_ahead = 1;
    meanwhiles++;
}

/* The records of a log do not change while the log has its epoch, so they are read without damage. */
int __real_boddurci_read_at(int, uint64_t, uint8_t *, size_t);
int __wrap_boddurci_read_at(int, uint64_t, uint8_t *, size_t);
int __wrap_boddurci_read_at(int opened, uint64_t at, uint8_t *room, size_t size)
{
    char name[40], to[300] = "";
    int status = __real_boddurci_read_at(opened, at, room, size);
    if (is_ahead && meanwhile != NULL && reads-- == 0)
        call_meanwhile();
    if (status != 0 || !is_ahead || damage == 0 || size == 0 || roll(damage) != 0)
        return status;
    snprintf(name, sizeof name, "/proc/self/fd/%d", opened);
    if (readlink(name, to, sizeof to - 1) > 0 && strstr(to, ".redo") != NULL && at >= RECORDS)
        return status;
    size_t from = roll((unsigned)size), length = 1 + roll((unsigned)(size - from));
    for (size_t i = from; i < from + length; i++)
        room[i] = roll(3) ? 0 : (uint8_t)roll(256);
    damaged++;
    return roll(9) ? status : -1;
}

/* ---- calls */

static boddurci_shared *one, *other;
static uint32_t counter, wide;
static const char *base;

static boddurci_shared *opened(uint32_t flags)
{
    boddurci_shared *shared = boddurci_open_shared(base, flags, &fault);
    EXPECT(shared != NULL && fault.status == BODDURCI_DONE);
    return shared;
}

static uint32_t put(boddurci_shared *shared, const char *key, const char *value, uint32_t replace)
{
    return boddurci_shared_store(shared, (const uint8_t *)key, strlen(key), (const uint8_t *)value, strlen(value), replace, &fault);
}

static int stores(boddurci_shared *shared, const char *key, const char *value)
{
    return put(shared, key, value, 1) == BODDURCI_DONE && fault.status == BODDURCI_DONE && fault.system == 0;
}

static uint32_t removes(boddurci_shared *shared, const char *key)
{
    return boddurci_shared_delete(shared, (const uint8_t *)key, strlen(key), &fault);
}

static int has(const char *key, const char *value)
{
    uint8_t room[BODDURCI_VALUE_MOST];
    size_t length = 0;
    uint32_t status = boddurci_shared_fetch(other, (const uint8_t *)key, strlen(key), room, sizeof room, &length, &fault);
    if (value == NULL)
        return status == BODDURCI_MISSING;
    return status == BODDURCI_DONE && length == strlen(value) && memcmp(room, value, length) == 0;
}

/* Increments a counter, up to `most`. Returns its number, or 0 if the call fails or the counter has that number. */
static uint64_t counts(boddurci_shared *shared, const char *key, uint64_t most)
{
    uint64_t end = 0, number = 0;
    uint32_t status = boddurci_shared_add(shared, (const uint8_t *)key, strlen(key), 1, 0, most, &end, &number, &fault);
    return status == BODDURCI_DONE && end == 1 ? number : 0;
}

/* Opens two handles of a new base with several pages. The next change of `one` is executed ahead. */
static void begin(const char *name, uint32_t flags)
{
    char key[20];
    static char value[101];
    base = name;
    wide = flags & BODDURCI_WIDE;
    memset(value, 'v', 100);
    one = opened(flags);
    other = opened(wide | BODDURCI_NO_FLUSH);
    EXPECT(boddurci_shared_stock(one, "bounded_counter", &counter) == BODDURCI_DONE);
    for (int i = 0; i < 60; i++)
        EXPECT(stores(other, (sprintf(key, "key%d", i), key), value));
    EXPECT(stores(one, "key0", "0") && stores(other, "key1", "1") && stores(one, "key0", "1"));
}

static void end(void)
{
    boddurci_close_shared(one);
    boddurci_close_shared(other);
    boddurci_base *files = boddurci_open_files(base, wide, &fault);
    EXPECT(files != NULL);
    boddurci_close_files(files);
}

/* Returns whether the last change of `one` used the result of the execution ahead, or executed the command again. */
static int was_right(void)
{
    return executions == 1 && takes == 1;
}

static int was_wrong(void)
{
    return executions == 2 && takes == 0;
}

static int was_not_ahead(void)
{
    return executions == 1 && takes == 0;
}

/* ---- changes of other processes */

/* Reads .dir, and returns its length. */
static size_t read_directory(uint8_t directory[4096])
{
    char name[300];
    snprintf(name, sizeof name, "%s.dir", base);
    int file = open(name, O_RDONLY);
    ssize_t length = read(file, directory, 4096);
    EXPECT(file >= 0 && length >= 0);
    close(file);
    return (size_t)length;
}

static uint32_t page_of(const char *key)
{
    static uint8_t directory[4096];
    size_t length = read_directory(directory);
    return boddurci_page_of((const uint8_t *)key, strlen(key), directory, length, 0);
}

/* A key that leads to the page of "n", or to another one. */
static const char *neighbour(int is_same)
{
    static char key[20];
    EXPECT(boddurci_shared_flush(other, &fault) == BODDURCI_DONE);
    for (int i = 0; i < 60; i++)
        if ((page_of((sprintf(key, "key%d", i), key)) == page_of("n")) == is_same)
            return key;
    EXPECT(0);
    return NULL;
}

static const char *beside;
static char changed[20];

static void change_beside(void)
{
    static unsigned times;
    sprintf(changed, "changed %u", times++);
    EXPECT(stores(other, beside, changed));
}

static void count_too(void)
{
    EXPECT(counts(other, "n", UINT64_MAX) != 0);
}

static void store_n(void)
{
    EXPECT(stores(other, "n", "new"));
}

static void remove_n(void)
{
    EXPECT(removes(other, "n") == BODDURCI_DONE);
}

static void remove_n_and_put_it_back(void)
{
    remove_n();
    store_n();
}

static void flush(void)
{
    EXPECT(boddurci_shared_flush(other, &fault) == BODDURCI_DONE);
}

static void split(void)
{
    char key[20];
    static char value[301];
    memset(value, 's', 300);
    for (int i = 100; i < 120; i++)
        EXPECT(stores(other, (sprintf(key, "key%d", i), key), value));
}

static void open_and_close(void)
{
    boddurci_base *files = boddurci_open_files(base, wide, &fault);
    EXPECT(files != NULL);
    boddurci_close_files(files);
}

static void serve(void)
{
    boddurci_base *files = boddurci_open_files(base, wide, &fault);
    EXPECT(files != NULL && boddurci_store(boddurci_take(files), BYTES("n"), BYTES("served"), 1) == BODDURCI_DONE);
    boddurci_give(files);
    EXPECT(boddurci_save(files, &fault) == BODDURCI_DONE);
    boddurci_close_files(files);
}

/* Writes the page of "n" in place, as a program that does not know the log. The value of "n" was "old". Waits before for the next tick of the
 * clock: the first call after all handles are closed may recover the log over a write in the tick of the last change. */
static void write_in_place(void)
{
    char name[300];
    nanosleep(&(struct timespec){0, 30000000}, NULL);
    uint8_t page[1024];
    off_t at = (off_t)page_of("n") * 1024;
    snprintf(name, sizeof name, "%s.pag", base);
    int file = open(name, O_RDWR);
    EXPECT(file >= 0 && pread(file, page, sizeof page, at) == sizeof page);
    uint8_t *found = memmem(page, sizeof page, "oldn", 4);
    EXPECT(found != NULL && pwrite(file, "odd", 3, at + (found - page)) == 3);
    close(file);
}

/* Copies a file, and replaces it by the copy. */
static void replace_files(void)
{
    char command[1000];
    snprintf(command, sizeof command, "cp %s.pag new.pag && cp %s.dir new.dir && mv new.pag %s.pag && mv new.dir %s.dir", base, base, base,
             base);
    EXPECT(system(command) == 0);
}

static void fail_flush(void)
{
    uint8_t epoch[8];
    char name[300];
    snprintf(name, sizeof name, "%s.lock", base);
    int file = open(name, O_RDWR);
    EXPECT(file >= 0 && pread(file, epoch, 8, 56) == 8 && pwrite(file, epoch, 8, 176) == 8);
    close(file);
}

static int held;

static void hold(void)
{
    char name[300];
    snprintf(name, sizeof name, "%s.lock", base);
    held = open(name, O_RDONLY);
    EXPECT(held >= 0 && flock(held, LOCK_EX) == 0);
}

static void die(void)
{
    kill(getpid(), SIGKILL);
}

/* ---- tests */

/* Lets `other` change the base, so that the next change of `one` is executed ahead, and sets what happens before it takes the locks. */
static void prepare(void (*what)(void))
{
    EXPECT(stores(other, "key1", "1") && stores(one, "key0", "1") && stores(other, "key1", "2"));
    one->skips = one->misses = 0;
    between = what;
}

/* The counter has the number of increments, and each increment returns the number that it made. */
static void test_counts(uint32_t flags)
{
    uint64_t most = UINT64_MAX;
    begin(flags ? "counts" : "durable", flags);
    EXPECT(counts(one, "n", most) == 1);
    prepare(NULL);
    EXPECT(counts(one, "n", most) == 2 && was_right());
    beside = neighbour(0);
    prepare(change_beside);
    EXPECT(counts(one, "n", most) == 3 && was_right() && has(beside, changed));
    beside = neighbour(1);
    prepare(change_beside);
    EXPECT(counts(one, "n", most) == 4 && was_wrong() && has(beside, changed));
    prepare(count_too);
    EXPECT(counts(one, "n", most) == 6 && was_wrong());
    prepare(flush);
    EXPECT(counts(one, "n", most) == 7 && was_right());
    prepare(split);
    EXPECT(counts(one, "n", most) == 8 && was_wrong());
    prepare(open_and_close);
    EXPECT(counts(one, "n", most) == 9 && was_right());
    prepare(replace_files);
    EXPECT(counts(one, "n", most) == 10 && has("key0", "1"));
    prepare(fail_flush);
    EXPECT(counts(one, "n", most) == 11);
    EXPECT(counts(other, "n", most) == 12 && counts(one, "n", most) == 13);
    end();
}

/* A reply that changes nothing is that of the database under the locks. */
static void test_replies(void)
{
    begin("replies", BODDURCI_NO_FLUSH);
    prepare(NULL);
    EXPECT(removes(one, "n") == BODDURCI_MISSING && fault.status == BODDURCI_MISSING && was_right());
    prepare(store_n);
    EXPECT(removes(one, "n") == BODDURCI_DONE && fault.status == BODDURCI_DONE && was_wrong() && has("n", NULL));
    EXPECT(stores(one, "n", "old"));
    prepare(NULL);
    EXPECT(put(one, "n", "x", 0) == BODDURCI_EXISTS && was_right());
    prepare(remove_n);
    EXPECT(put(one, "n", "x", 0) == BODDURCI_DONE && was_wrong() && has("n", "x"));
    prepare(remove_n);
    EXPECT(removes(one, "n") == BODDURCI_MISSING && was_wrong());
    prepare(store_n);
    EXPECT(put(one, "n", "x", 0) == BODDURCI_EXISTS && was_wrong() && has("n", "new"));
    prepare(remove_n_and_put_it_back);
    EXPECT(stores(one, "n", "x") && has("n", "x") && removes(one, "n") == BODDURCI_DONE);
    /* A run that changes nothing, since the counter has its greatest number. */
    EXPECT(counts(one, "n", 3) == 1 && counts(one, "n", 3) == 2);
    prepare(count_too);
    EXPECT(counts(one, "n", 3) == 0 && fault.status == BODDURCI_DONE && was_wrong());
    prepare(NULL);
    EXPECT(counts(one, "n", 3) == 0 && was_right());
    prepare(remove_n);
    EXPECT(counts(one, "n", 3) == 1 && was_wrong());
    end();
}

/* The length of .pag, and the bytes of .dir. */
struct shape {
    off_t length;
    uint8_t directory[4096];
};

static struct shape shape(void)
{
    struct stat found;
    char name[300];
    struct shape is = {0, {0}};
    snprintf(name, sizeof name, "%s.pag", base);
    EXPECT(boddurci_shared_flush(other, &fault) == BODDURCI_DONE && stat(name, &found) == 0);
    is.length = found.st_size;
    read_directory(is.directory);
    return is;
}

/* Stores a new pair in another page than that of "n". */
static void store_elsewhere(void)
{
    char key[20];
    static unsigned times;
    static char value[301];
    memset(value, 'e', 300);
    do
        sprintf(key, "else%u", times++);
    while (page_of(key) == page_of("n"));
    EXPECT(stores(other, key, value));
}

/* The plan of a change has the lengths of both files, and may change .dir. So both have to be the same under the locks, even if the page is. */
static void test_shapes(void)
{
    int seen[2][2] = {{0}};
    begin("shapes", BODDURCI_NO_FLUSH);
    for (uint64_t number = 1; number < 400 && (!seen[0][0] || !seen[0][1] || !seen[1][1]); number++) {
        struct shape was = shape();
        prepare(store_elsewhere);
        EXPECT(counts(one, "n", UINT64_MAX) == number);
        int is_same = was_right(), is_wrong = was_wrong();
        struct shape is = shape();
        int has_grown = is.length != was.length, is_split = memcmp(is.directory, was.directory, sizeof is.directory) != 0;
        EXPECT(has_grown || is_split || number == 1 ? is_wrong : is_same);
        seen[has_grown][is_split] = 1;
    }
    EXPECT(seen[0][0] && seen[0][1] && seen[1][1]);
    end();
}

/* Programs that open the whole base, or that do not know the log, may change the page. */
static void test_others(void)
{
    begin("others", BODDURCI_NO_FLUSH);
    EXPECT(stores(one, "n", "old"));
    prepare(serve);
    EXPECT(put(one, "n", "x", 0) == BODDURCI_EXISTS && was_wrong() && has("n", "served"));
    EXPECT(stores(one, "n", "old"));
    prepare(serve);
    EXPECT(removes(one, "n") == BODDURCI_DONE && has("n", NULL) && stores(one, "n", "old"));
    prepare(NULL);
    flush();
    EXPECT(stores(other, "key1", "3"));
    flush();
    between = write_in_place;
    EXPECT(put(one, "n", "x", 0) == BODDURCI_EXISTS && has("n", "odd"));
    end();
}

/* Commands that read the clock are not executed ahead. After results in vain, fewer commands are. */
static void test_rules(void)
{
    uint64_t end_of_run = 0, word = 0;
    uint8_t argument[24] = {1};
    begin("rules", BODDURCI_NO_FLUSH);
    memset(argument + 16, 255, 8);
    prepare(NULL);
    EXPECT(boddurci_shared_run_now(one, counter, BYTES("n"), argument, sizeof argument, 1, 8, 1, &end_of_run, &word, &fault) == BODDURCI_DONE);
    EXPECT(word == 1 && was_not_ahead());
    int ahead = 0;
    for (int i = 0; i < 200; i++) {
        between = count_too;
        EXPECT(counts(one, "n", UINT64_MAX) == (uint64_t)(2 * i + 3));
        ahead += executions == 2;
        EXPECT(was_wrong() || was_not_ahead());
    }
    EXPECT(ahead > 3 && ahead < 20);
    /* If nobody else changes the base, no command is executed ahead. */
    for (int i = 0; i < 100; i++)
        EXPECT(counts(one, "n", UINT64_MAX) == (uint64_t)(i + 402) && (i < 50 || was_not_ahead()));
    /* If nobody changes the same page, nearly all are. */
    beside = neighbour(0);
    for (int i = ahead = 0; i < 200; i++, ahead += was_right()) {
        between = change_beside;
        EXPECT(counts(one, "n", UINT64_MAX) == (uint64_t)(i + 502));
    }
    EXPECT(ahead > 120);
    end();
}

/* A call that gets no lock, and one that is killed before it has the locks, change nothing. */
static void test_no_lock(void)
{
    int status;
    begin("no_lock", BODDURCI_NO_FLUSH);
    EXPECT(counts(one, "n", UINT64_MAX) == 1 && boddurci_shared_wait(one, 0) == BODDURCI_DONE);
    prepare(hold);
    EXPECT(counts(one, "n", UINT64_MAX) == 0 && fault.status == BODDURCI_LOCKED && close(held) == 0);
    EXPECT(counts(one, "n", UINT64_MAX) == 2);
    pid_t child = fork();
    if (child == 0) {
        prepare(die);
        counts(one, "n", UINT64_MAX);
        _exit(0);
    }
    EXPECT(waitpid(child, &status, 0) == child && WIFSIGNALED(status) && counts(one, "n", UINT64_MAX) == 3);
    end();
}

/* A process counts on many pages. Adds the number of results that were used to *used. */
static void count_many(uint32_t flags, unsigned start, unsigned times, unsigned *used)
{
    char key[20];
    boddurci_shared *shared = opened(flags);
    EXPECT(boddurci_shared_wait(shared, 60000) == BODDURCI_DONE);
    seed = start;
    for (unsigned i = 0; i < times; i++) {
        EXPECT(counts(shared, (sprintf(key, "n%u", roll(300)), key), UINT64_MAX) != 0);
        __atomic_fetch_add(used, (unsigned)takes, __ATOMIC_RELAXED);
    }
    boddurci_close_shared(shared);
}

/* The counters of several processes add up. Some processes use handles that their parent has opened, and that have found other changes. */
static void test_processes(void)
{
    enum { PROCESSES = 6, TIMES = 1500 };
    uint64_t sum = 0;
    int status;
    unsigned *used = mmap(NULL, sizeof *used, PROT_READ | PROT_WRITE, MAP_SHARED | MAP_ANONYMOUS, -1, 0);
    EXPECT(used != MAP_FAILED);
    begin("processes", BODDURCI_NO_FLUSH);
    EXPECT(boddurci_shared_wait(one, 60000) == BODDURCI_DONE);
    prepare(NULL);
    for (unsigned i = 0; i < PROCESSES; i++)
        if (fork() == 0) {
            EXPECT(counts(one, "n0", UINT64_MAX) != 0);
            count_many(i % 3 ? BODDURCI_NO_FLUSH : 0, i, i % 3 ? TIMES : TIMES / 10, used);
            _exit(0);
        }
    for (int i = 0; i < PROCESSES; i++)
        EXPECT(wait(&status) > 0 && status == 0);
    for (unsigned i = 0; i < 300; i++) {
        char key[20];
        uint64_t number = counts(one, (sprintf(key, "n%u", i), key), UINT64_MAX);
        EXPECT(number != 0);
        sum += number - 1;
    }
    EXPECT(sum == 4 * TIMES + 2 * (TIMES / 10) + PROCESSES && *used != 0);
    munmap(used, sizeof *used);
    end();
}

/* Changes a counter of a model, or stores or deletes a long value, which may split its page. */
static void change_one_of(uint64_t numbers[40], boddurci_shared *shared)
{
    char key[20];
    static char value[301];
    unsigned which = roll(40);
    memset(value, 'l', 300);
    one->skips = one->misses = other->skips = other->misses = 0;
    if (roll(4) == 0) {
        sprintf(key, "long%u", roll(300));
        EXPECT(roll(5) ? stores(shared, key, value) : removes(shared, key) <= BODDURCI_MISSING);
        return;
    }
    sprintf(key, "n%u", which);
    if (roll(8) == 0) {
        uint32_t status = removes(shared, key);
        EXPECT(status == (numbers[which] ? BODDURCI_DONE : BODDURCI_MISSING));
        numbers[which] = 0;
        return;
    }
    uint64_t number = counts(shared, key, 9);
    EXPECT(number == (numbers[which] < 9 ? numbers[which] + 1 : 0) && fault.status == BODDURCI_DONE);
    numbers[which] += numbers[which] < 9;
}

/* Reads without locks that get wrong bytes change no reply and no file. */
static void test_damage(uint32_t flags)
{
    uint64_t numbers[40] = {0};
    begin(flags & BODDURCI_WIDE ? "wide" : "damage", flags);
    damage = 6;
    for (int i = 0; i < 6000; i++) {
        change_one_of(numbers, roll(2) ? one : other);
        if (roll(300) == 0)
            flush();
        if (roll(100) == 0)
            open_and_close();
    }
    EXPECT(damaged > 1000);
    damage = damaged = 0;
    end();
}

static uint64_t model[40];

/* Changes the base by another handle, and perhaps applies the tail of the log, or closes the log, so that a new one begins. */
static void overtake(void)
{
    for (unsigned i = roll(4); i > 0; i--)
        change_one_of(model, other);
    if (roll(3) == 0)
        flush();
    if (roll(3) == 0)
        open_and_close();
    for (unsigned i = roll(4); i > 0; i--)
        change_one_of(model, other);
}

/* Other changes come between two reads without locks: between the header of the log, the note, the records, .dir and the page. */
static void test_overtaken(uint32_t flags)
{
    enum { TIMES = 2000 };
    memset(model, 0, sizeof model);
    begin(flags & BODDURCI_WIDE ? "overtaken wide" : "overtaken", flags);
    meanwhiles = 0;
    for (int i = 0; i < TIMES; i++) {
        one->others = 8;
        reads = roll(6);
        meanwhile = overtake;
        change_one_of(model, one);
    }
    meanwhile = NULL;
    EXPECT(meanwhiles > TIMES / 4);
    end();
}

int main(int count, char **words)
{
    EXPECT(count == 2 && chdir(words[1]) == 0);
    test_counts(BODDURCI_NO_FLUSH);
    test_counts(0);
    test_replies();
    test_shapes();
    test_others();
    test_rules();
    test_no_lock();
    test_processes();
    test_damage(BODDURCI_NO_FLUSH);
    test_damage(BODDURCI_NO_FLUSH | BODDURCI_WIDE);
    test_overtaken(BODDURCI_NO_FLUSH);
    test_overtaken(BODDURCI_NO_FLUSH | BODDURCI_WIDE);
    printf("%lu checks\n", looked);
    return 0;
}
