/* Tests redo files, from C: files that no save can leave; files in the format from before the log; and logs, whole, torn and damaged. Also
 * tests a limit on the length of .dir. tests/c_library builds and runs it. The argument is a folder. */
#define _DEFAULT_SOURCE
#include "boddurci_files.h"
#include <errno.h>
#include <signal.h>
#include <stdio.h>
#include <stdlib.h>
#include <string.h>
#include <sys/resource.h>
#include <sys/stat.h>
#include <sys/wait.h>
#include <time.h>
#include <unistd.h>

/* TICK is a time in microseconds, longer than a tick of the clock. Within a tick a base does not notice writes of another program. */
enum { PAIRS = 100, HEADER = 4096, LOG = HEADER + 1048576, GROWN = HEADER + 4194304, SAVES = 3, FAST = 20, TICK = 20000 };

static unsigned long looked;
static boddurci_fault fault;

#define EXPECT(what)                                                                                                               \
    do {                                                                                                                           \
        looked++;                                                                                                                  \
        if (!(what)) {                                                                                                             \
            fprintf(stderr, "c_logs.c:%d: not so: %s (%s)\n", __LINE__, #what, fault.text);                                        \
            exit(1);                                                                                                               \
        }                                                                                                                          \
    } while (0)

static int fails(const char *name, uint32_t flags, uint32_t status)
{
    return boddurci_open_files(name, flags, &fault) == NULL && fault.status == status && fault.text[0] != 0;
}

static boddurci_base *opened(const char *name, uint32_t flags)
{
    boddurci_base *base = boddurci_open_files(name, flags, &fault);
    EXPECT(base != NULL && fault.status == BODDURCI_DONE);
    return base;
}

static void write_text(const char *name, const char *bytes, size_t length)
{
    FILE *file = fopen(name, "wb");
    EXPECT(file != NULL && fwrite(bytes, 1, length, file) == length && fclose(file) == 0);
}

static long long length_of(const char *name)
{
    struct stat found;
    return stat(name, &found) == 0 ? (long long)found.st_size : -1;
}

static int is_marked(const char *name)
{
    FILE *file = fopen(name, "rb");
    int first = file != NULL ? fgetc(file) : 0;
    if (file != NULL)
        fclose(file);
    return first == 1;
}

static size_t count_of(boddurci_base *base)
{
    size_t count = 0;
    EXPECT(boddurci_count(boddurci_take(base), &count) == BODDURCI_DONE);
    boddurci_give(base);
    return count;
}

static size_t found_in(const char *name)
{
    boddurci_base *base = opened(name, BODDURCI_READ_ONLY);
    size_t count = count_of(base);
    boddurci_close_files(base);
    return count;
}

static void store_one(boddurci_base *base, int i)
{
    char key[16];
    int length = snprintf(key, sizeof key, "key%d", i);
    EXPECT(boddurci_store(boddurci_take(base), (const uint8_t *)key, (size_t)length, (const uint8_t *)key, (size_t)length, 1) == BODDURCI_DONE);
    boddurci_give(base);
}

/* ---- redo files of one save */

/* Writes a marked redo file without changes. It has the new lengths of .pag and .dir, and their old lengths. */
static void write_redo(const char *name, const uint32_t lengths[4])
{
    char redo[29] = "\1sdbmred2";
    for (int i = 0; i < 16; i++)
        redo[9 + i] = (char)(lengths[i / 4] >> 8 * (i % 4));
    write_text(name, redo, sizeof redo);
}

static int is_bad_redo(const char *name)
{
    return fails(name, 0, BODDURCI_BAD_REDO) && fails(name, BODDURCI_READ_ONLY, BODDURCI_BAD_REDO) && strstr(fault.text, "is not of these files");
}

/* Tests redo files: one that no save can leave, one in an older format, one of other files, two with lengths over the limit, and one without a
 * mark. */
static void test_redo(void)
{
    static const uint32_t other[4] = {1024, 0, 2048, 0}, long_file[4] = {1073742848, 0, 0, 0}, long_dir[4] = {0, 268435457, 0, 0};
    static const char former[21] = "\1sdbmredo";
    write_text("visits.redo", "\1plan", 5);
    EXPECT(is_bad_redo("visits"));
    write_text("visits.redo", former, sizeof former);
    EXPECT(is_bad_redo("visits"));
    write_redo("visits.redo", other);
    EXPECT(is_bad_redo("visits"));
    write_redo("none.redo", long_file);
    EXPECT(fails("none", 0, BODDURCI_TOO_LONG) && fails("none", BODDURCI_READ_ONLY, BODDURCI_TOO_LONG));
    write_redo("none.redo", long_dir);
    EXPECT(fails("none", 0, BODDURCI_TOO_LONG) && fails("none", BODDURCI_READ_ONLY, BODDURCI_TOO_LONG) && is_marked("none.redo"));
    write_text("visits.redo", "\0plan", 5);
    /* Only the first byte of an unmarked redo file is read, even if it is long. A writer makes a new one. */
    EXPECT(truncate("visits.redo", 3000000000) == 0);
    boddurci_base *base = opened("visits", 0);
    EXPECT(count_of(base) == PAIRS && length_of("visits.redo") == LOG && is_marked("visits.redo"));
    boddurci_close_files(base);
    base = opened("visits", 0);
    store_one(base, PAIRS);
    EXPECT(boddurci_save(base, &fault) == BODDURCI_DONE && length_of("visits.redo") == LOG);
    boddurci_close_files(base);
}

/* Tests an interrupted save of an empty database. A reader finds the database empty and writes nothing, and a writer recovers the files. */
static void test_cut_off(void)
{
    static const uint32_t lengths[4] = {0, 0, 1024, 0};
    boddurci_base *base = opened("cut", 0);
    store_one(base, 1);
    EXPECT(boddurci_save(base, &fault) == BODDURCI_DONE);
    boddurci_close_files(base);
    write_redo("cut.redo", lengths);
    base = opened("cut", BODDURCI_READ_ONLY | BODDURCI_MUST_EXIST);
    EXPECT(count_of(base) == 0 && length_of("cut.pag") == 1024 && is_marked("cut.redo"));
    boddurci_close_files(base);
    base = opened("cut", 0);
    EXPECT(count_of(base) == 0 && length_of("cut.pag") == 0 && is_marked("cut.redo") && found_in("cut") == 0);
    boddurci_close_files(base);
}

/* Tests a plan with two changes that overlap in one byte. It is accepted if the file has an old or a new byte of either change there, and
 * refused for any other byte. */
static void test_known(void)
{
    static const uint8_t head[29] = {1, 's', 'd', 'b', 'm', 'r', 'e', 'd', '2', 0, 4, 0, 0, 0, 0, 0, 0, 0, 4, 0, 0, 0, 0, 0, 0, 2};
    static const uint8_t changes[2][13] = {{0, 252, 3, 0, 0, 2, 0, 0, 0, 'n', 'e', 0, 0}, {0, 253, 3, 0, 0, 2, 0, 0, 0, 'x', 'y', 'e', 0}};
    char redo[55], page[1024] = {0};
    memcpy(redo, head, 29);
    memcpy(redo + 29, changes, 26);
    for (int found = 0; found < 256; found++) {
        page[1021] = (char)found;
        write_text("known.pag", page, sizeof page);
        write_text("known.redo", redo, sizeof redo);
        if (found == 0 || found == 'e' || found == 'x')
            boddurci_close_files(opened("known", BODDURCI_READ_ONLY));
        else
            EXPECT(is_bad_redo("known"));
    }
    EXPECT(unlink("known.redo") == 0 && unlink("known.pag") == 0);
}

/* ---- logs */

/* Saves one pair at a time in a process, which is then killed. */
static void leave_log(const char *name, int from, int saves)
{
    int status;
    pid_t child = fork();
    if (child == 0) {
        boddurci_base *base = opened(name, 0);
        for (int i = from; i < from + saves; i++) {
            store_one(base, i);
            EXPECT(boddurci_save(base, &fault) == BODDURCI_DONE && fault.system == 0);
        }
        kill(getpid(), SIGKILL);
    }
    EXPECT(child > 0 && waitpid(child, &status, 0) == child && WIFSIGNALED(status) && WTERMSIG(status) == SIGKILL);
}

static uint8_t *bytes_of(const char *name, size_t *length)
{
    static uint8_t bytes[2 * LOG];
    FILE *file = fopen(name, "rb");
    EXPECT(file != NULL);
    *length = fread(bytes, 1, sizeof bytes, file);
    fclose(file);
    return bytes;
}

/* Returns the end of the record that begins at `at`. A record has its weight (four bytes), the length of its plan (four digits to the base
 * 255, each stored plus 1), and the plan. */
static size_t end_of(const uint8_t *bytes, size_t at)
{
    size_t length = 0;
    for (size_t i = 4; i-- > 0;)
        length = 255 * length + bytes[at + 4 + i] - 1;
    return at + 8 + length;
}

/* The next opening recovers the saves of a log that a killed process has left, both on the present data files and on those from before all
 * saves. */
static void test_left(void)
{
    leave_log("left", 0, SAVES);
    EXPECT(is_marked("left.redo") && length_of("left.redo") == LOG && length_of("left.pag") == 1024);
    for (int i = 0; i < 2; i++) {
        EXPECT(found_in("left") == SAVES && is_marked("left.redo"));
        EXPECT(truncate("left.pag", 0) == 0);
    }
    boddurci_base *base = opened("left", 0);
    EXPECT(count_of(base) == SAVES && found_in("left") == SAVES && length_of("left.pag") == 1024);
    boddurci_close_files(base);
    EXPECT(found_in("left") == SAVES && !is_marked("left.redo"));
    leave_log("left", SAVES, SAVES);
    EXPECT(is_marked("left.redo") && found_in("left") == 2 * SAVES);
    EXPECT(unlink("left.pag") == 0 && unlink("left.dir") == 0 && unlink("left.redo") == 0);
}

static int is_damaged(const char *name)
{
    EXPECT(fails(name, 0, BODDURCI_BAD_REDO) && strstr(fault.text, "is damaged") != NULL);
    return fails(name, BODDURCI_READ_ONLY, BODDURCI_BAD_REDO) && strstr(fault.text, "is damaged") != NULL;
}

/* If a byte of the last record is still 0, the record was never committed. If a byte of an earlier record was set to 0, the record is
 * damaged, and the log is refused. */
static void test_damaged(void)
{
    size_t length, ends[SAVES + 1] = {HEADER};
    leave_log("torn", 0, SAVES);
    uint8_t *bytes = bytes_of("torn.redo", &length);
    EXPECT(length == LOG);
    for (int i = 0; i < SAVES; i++)
        ends[i + 1] = end_of(bytes, ends[i]);
    for (int i = 0; i < SAVES; i++)
        for (size_t at = ends[i]; at < ends[i + 1]; at += at < ends[i] + 8 ? 1 : 97) {
            uint8_t was = bytes[at];
            if (was == 0)
                continue;
            bytes[at] = 0;
            write_text("torn.redo", (const char *)bytes, length);
            bytes[at] = was;
            if (i < SAVES - 1)
                EXPECT(is_damaged("torn"));
            else
                EXPECT(truncate("torn.pag", 0) == 0 && found_in("torn") == SAVES - 1);
        }
    write_text("torn.redo", (const char *)bytes, length);
    EXPECT(found_in("torn") == SAVES);
}

/* A save that does not fit into the log makes the log longer, and the next opening uses the longer log. A full log is emptied. */
static void test_long(void)
{
    boddurci_base *base = opened("long", 0);
    for (int i = 0; i < 60000; i++)
        store_one(base, i);
    EXPECT(boddurci_save(base, &fault) == BODDURCI_DONE);
    long long longer = length_of("long.redo");
    EXPECT(longer > LOG && (longer - HEADER) % 1048576 == 0);
    for (int i = 0; i < 3000; i++) {
        store_one(base, 70000 + i);
        EXPECT(boddurci_save(base, &fault) == BODDURCI_DONE && fault.system == 0);
    }
    EXPECT(length_of("long.redo") == longer && count_of(base) == 63000);
    boddurci_close_files(base);
    leave_log("long", 80000, 1);
    EXPECT(length_of("long.redo") == longer && is_marked("long.redo") && found_in("long") == 63001);
}

/* Moves the locks of an open base away, or back. */
static void move_locks(int is_back)
{
    if (is_back)
        EXPECT(unlink("beside.lock") == 0 && unlink("beside.writer") == 0);
    EXPECT(rename(is_back ? "away.lock" : "beside.lock", is_back ? "beside.lock" : "away.lock") == 0);
    EXPECT(rename(is_back ? "away.writer" : "beside.writer", is_back ? "beside.writer" : "away.writer") == 0);
}

/* A program that does not take the lock empties the log of an open base, and writes its pages. The next save is refused and closes the log.
 * A save that insists begins a new log, even after saves within one clock tick. */
static void test_written_beside(void)
{
    size_t count = 1;
    boddurci_base *base = opened("beside", 0);
    for (int i = 0; i < SAVES; i++) {
        store_one(base, 0);
        store_one(base, i + 1);
        EXPECT(boddurci_save(base, &fault) == BODDURCI_DONE && is_marked("beside.redo"));
        for (int fast = 0; fast < FAST; fast++) {
            store_one(base, 100 + FAST * i + fast);
            EXPECT(boddurci_save(base, &fault) == BODDURCI_DONE);
        }
        EXPECT(usleep(TICK) == 0);
        move_locks(0);
        boddurci_base *other = opened("beside", 0);
        EXPECT(boddurci_delete(boddurci_take(other), (const uint8_t *)"key0", 4) == BODDURCI_DONE);
        boddurci_give(other);
        EXPECT(boddurci_save(other, &fault) == BODDURCI_DONE);
        boddurci_close_files(other);
        EXPECT(!is_marked("beside.redo"));
        move_locks(1);
        store_one(base, i + 10);
        count += 2 + FAST;
        EXPECT(boddurci_save(base, &fault) == BODDURCI_CHANGED && !is_marked("beside.redo"));
        EXPECT(boddurci_save_with(base, BODDURCI_INSIST, &fault) == BODDURCI_DONE && is_marked("beside.redo") && count_of(base) == count);
        EXPECT(rename("beside.lock", "away") == 0 && found_in("beside") == count && rename("away", "beside.lock") == 0);
    }
    boddurci_close_files(base);
}

/* ---- limits */

static void set_limit(rlim_t most)
{
    struct rlimit limit;
    EXPECT(getrlimit(RLIMIT_FSIZE, &limit) == 0);
    limit.rlim_cur = most < limit.rlim_max ? most : limit.rlim_max;
    EXPECT(setrlimit(RLIMIT_FSIZE, &limit) == 0);
}

/* Returns whether a file and its time are unchanged. */
static int is_untouched(const char *name, const struct stat *before)
{
    struct stat is;
    EXPECT(stat(name, &is) == 0);
    return is.st_ino == before->st_ino && is.st_size == before->st_size && is.st_mtim.tv_sec == before->st_mtim.tv_sec &&
           is.st_mtim.tv_nsec == before->st_mtim.tv_nsec && is.st_ctim.tv_sec == before->st_ctim.tv_sec &&
           is.st_ctim.tv_nsec == before->st_ctim.tv_nsec;
}

static size_t value_of(boddurci_base *base, const char *key)
{
    uint8_t value[BODDURCI_VALUE_MOST];
    size_t length = 0;
    if (boddurci_fetch(boddurci_take(base), (const uint8_t *)key, strlen(key), value, sizeof value, &length) != BODDURCI_DONE)
        length = 0;
    boddurci_give(base);
    return length;
}

static void store_empty_key(boddurci_base *base, const char *value)
{
    EXPECT(boddurci_store(boddurci_take(base), BODDURCI_NO_BYTES, (const uint8_t *)value, strlen(value), 1) == BODDURCI_DONE);
    boddurci_give(base);
}

/* A save checks the length of .dir against the limit on the length of files, even if it changes only .pag. The hash of the empty key is 0,
 * so its page is the first one at any depth of the directory. */
static void test_limited_directory(void)
{
    static uint8_t directory[131072];
    struct stat pages, deep;
    boddurci_base *base = opened("deep", 0);
    store_empty_key(base, "1");
    EXPECT(boddurci_save(base, &fault) == BODDURCI_DONE);
    boddurci_close_files(base);
    for (unsigned depth = 0; depth <= 20; depth++) {
        unsigned bit = (1u << depth) - 1;
        directory[bit / 8] |= (uint8_t)(1u << bit % 8);
    }
    write_text("deep.dir", (const char *)directory, sizeof directory);
    EXPECT(stat("deep.pag", &pages) == 0 && pages.st_size == 1024 && stat("deep.dir", &deep) == 0);
    base = opened("deep", 0);
    EXPECT(value_of(base, "") == 1);
    store_empty_key(base, "22");
    set_limit(100000);
    EXPECT(boddurci_save(base, &fault) == BODDURCI_FILE_FAILED && fault.system == EFBIG && strstr(fault.text, "BASE.dir") != NULL);
    EXPECT(is_untouched("deep.pag", &pages) && is_untouched("deep.dir", &deep));
    set_limit(131072);
    EXPECT(boddurci_save(base, &fault) == BODDURCI_DONE && fault.system == 0);
    set_limit(RLIM_INFINITY);
    boddurci_close_files(base);
    base = opened("deep", BODDURCI_READ_ONLY);
    EXPECT(value_of(base, "") == 2);
    boddurci_close_files(base);
}

/* Replaces the function of the C library, for Boddurci too. If `omits_syncs` is 1, it does nothing: with a disk that syncs slowly, saves
 * would not fill a log within a second. */
static int omits_syncs;

int fdatasync(int file)
{
    return omits_syncs ? 0 : fsync(file);
}

/* Saves values of one key until they have filled a log of 1 MiB once. Returns 1 if that took too long for the log to grow, as under
 * valgrind. */
enum { FILLS = 900, LONG = 700 };

static int fills_slowly(boddurci_base *base)
{
    uint8_t value[800];
    struct timespec from, to;
    clock_gettime(CLOCK_MONOTONIC, &from);
    for (int i = 1; i <= FILLS; i++) {
        memset(value, i, sizeof value);
        EXPECT(boddurci_store(boddurci_take(base), (const uint8_t *)"full", 4, value, sizeof value, 1) == BODDURCI_DONE);
        boddurci_give(base);
        EXPECT(boddurci_save(base, &fault) == BODDURCI_DONE && fault.system == 0);
    }
    clock_gettime(CLOCK_MONOTONIC, &to);
    return (to.tv_sec - from.tv_sec) * 1000 + (to.tv_nsec - from.tv_nsec) / 1000000 >= LONG;
}

static int first_byte_of(const char *name, const char *key)
{
    uint8_t value[BODDURCI_VALUE_MOST] = {0};
    size_t length;
    boddurci_base *base = opened(name, BODDURCI_READ_ONLY);
    EXPECT(boddurci_fetch(boddurci_take(base), (const uint8_t *)key, strlen(key), value, sizeof value, &length) == BODDURCI_DONE);
    boddurci_give(base);
    boddurci_close_files(base);
    return value[0];
}

/* A log that fills within a second gets 4 MiB, once, and keeps this room. A log that fills more slowly, or that may not become longer,
 * keeps its room. No save fails, and the last save is found, even after a kill. */
static void test_grown(void)
{
    enum { SLOW, LIMITED, KILLED, CASES };
    static const char *const names[CASES] = {"slow", "limited", "killed"}, *const redos[CASES] = {"slow.redo", "limited.redo", "killed.redo"};
    for (int i = 0; i < CASES; i++) {
        int status;
        pid_t child = fork();
        if (child == 0) {
            boddurci_base *base = opened(names[i], 0);
            omits_syncs = 1;
            store_one(base, 1);
            EXPECT(boddurci_save(base, &fault) == BODDURCI_DONE && length_of(redos[i]) == LOG);
            if (i == LIMITED)
                set_limit(2 << 20);
            EXPECT(i != SLOW || usleep(1100000) == 0);
            int is_slow = fills_slowly(base);
            EXPECT(is_marked(redos[i]) && (length_of(redos[i]) == (i == KILLED ? GROWN : LOG) || (is_slow && i == KILLED)));
            if (i == KILLED)
                kill(getpid(), SIGKILL);
            boddurci_close_files(base);
            _exit(0);
        }
        EXPECT(child > 0 && waitpid(child, &status, 0) == child);
        EXPECT(i == KILLED ? WIFSIGNALED(status) : WIFEXITED(status) && WEXITSTATUS(status) == 0);
        EXPECT(first_byte_of(names[i], "full") == (uint8_t)FILLS);
    }
    long long length = length_of("killed.redo");
    boddurci_close_files(opened("killed", 0));
    EXPECT(!is_marked("killed.redo") && length_of("killed.redo") == length && first_byte_of("killed", "full") == (uint8_t)FILLS);
}

int main(int argc, char **argv)
{
    if (argc != 2 || chdir(argv[1]) != 0)
        return 2;
    boddurci_base *base = opened("visits", 0);
    for (int i = 0; i < PAIRS; i++)
        store_one(base, i);
    EXPECT(boddurci_save(base, &fault) == BODDURCI_DONE);
    boddurci_close_files(base);
    test_redo();
    test_cut_off();
    test_known();
    test_left();
    test_damaged();
    test_long();
    test_written_beside();
    test_limited_directory();
    test_grown();
    printf("%lu answers as expected\n", looked);
    return 0;
}
