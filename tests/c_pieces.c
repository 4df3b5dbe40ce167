/* Tests opening bases whose files are read in pieces: memory and time, files that become shorter meanwhile, odd lengths and the greatest
 * length. tests/c_library builds and runs it, with pread wrapped. The argument is a folder. It prints memory in KiB and time in
 * milliseconds. The status is 1 if opening a base takes more than 1.25 times the memory of the open database, or if opening a sparse 1 GiB
 * takes more than 8 MiB or a second of processor time. */
#define _GNU_SOURCE
#include "boddurci_files.h"
#include <malloc.h>
#include <stdio.h>
#include <stdlib.h>
#include <string.h>
#include <sys/resource.h>
#include <sys/wait.h>
#include <unistd.h>

enum { PIECE = 262144, GIB = 1 << 30 };

static boddurci_fault fault;
static int is_slow;

#define NEED(what)                                                                                                                 \
    do {                                                                                                                           \
        if (!(what)) {                                                                                                             \
            fprintf(stderr, "c_pieces:%d: not so: %s (%s)\n", __LINE__, #what, fault.text);                                        \
            exit(2);                                                                                                               \
        }                                                                                                                          \
    } while (0)

/* ---- a file that becomes shorter after its first piece was read */

static const char *cut;
static off_t cut_to;

ssize_t __real_pread(int file, void *room, size_t size, off_t at);
ssize_t __wrap_pread(int file, void *room, size_t size, off_t at);

ssize_t __wrap_pread(int file, void *room, size_t size, off_t at)
{
    ssize_t got = __real_pread(file, room, size, at);
    if (cut != NULL && size == PIECE) {
        NEED(truncate(cut, cut_to) == 0);
        cut = NULL;
    }
    return got;
}

/* ---- bases */

static boddurci_base *opened(const char *name, uint32_t flags)
{
    boddurci_base *base = boddurci_open_files(name, flags, &fault);
    NEED(base != NULL);
    return base;
}

static size_t count_of(boddurci_base *base)
{
    size_t count = 0;
    NEED(boddurci_count(boddurci_take(base), &count) == BODDURCI_DONE);
    boddurci_give(base);
    return count;
}

/* Makes a base with `pairs` pairs. The key and the value of a pair have `bytes` bytes together. */
static void make(const char *name, uint32_t flags, unsigned pairs, size_t bytes)
{
    static uint8_t value[1000];
    char key[16];
    boddurci_base *base = opened(name, flags | BODDURCI_EMPTY);
    boddurci *db = boddurci_take(base);
    for (unsigned i = 0; i < pairs; i++) {
        size_t length = (size_t)snprintf(key, sizeof key, "%u", i);
        memset(value, (int)(i % 251), bytes);
        NEED(boddurci_store(db, (const uint8_t *)key, length, value, bytes - length, 1) == BODDURCI_DONE);
    }
    boddurci_give(base);
    NEED(boddurci_save(base, &fault) == BODDURCI_DONE && fault.system == 0);
    boddurci_close_files(base);
}

/* ---- memory and time */

/* Returns the present memory or the peak memory of this process in KiB. */
static long memory(const char *which)
{
    char line[200];
    long found = -1;
    FILE *file = fopen("/proc/self/status", "r");
    NEED(file != NULL);
    while (fgets(line, sizeof line, file) != NULL)
        if (strncmp(line, which, strlen(which)) == 0)
            found = strtol(line + strlen(which), NULL, 10);
    fclose(file);
    NEED(found >= 0);
    return found;
}

static double processor(void)
{
    struct rusage used;
    NEED(getrusage(RUSAGE_SELF, &used) == 0);
    return (double)(used.ru_utime.tv_sec + used.ru_stime.tv_sec) * 1e3 + (double)(used.ru_utime.tv_usec + used.ru_stime.tv_usec) * 1e-3;
}

/* Prints the peak memory of opening a base, the memory that stays in use, and the processor time. Returns whether the peak or the time is
 * too high. */
static int measured(const char *what, const char *name, uint32_t flags, size_t pairs, int is_sparse)
{
    long before = memory("VmRSS:");
    double from = processor();
    boddurci_base *base = opened(name, flags);
    double time = processor() - from;
    long most = memory("VmHWM:") - before;
    malloc_trim(0);
    long stays = memory("VmRSS:") - before;
    NEED(count_of(base) == pairs);
    boddurci_close_files(base);
    printf("%s: opening %ld KiB, open %ld KiB, %.0f milliseconds of the processor\n", what, most, stays, time);
    return is_sparse ? most > 8192 || time > 1000 : most * 4 > stays * 5;
}

/* Calls `measured` in a new process, which has not allocated memory yet. */
static void measure(const char *what, const char *name, uint32_t flags, size_t pairs, int is_sparse)
{
    char words[3][24];
    int status;
    snprintf(words[0], sizeof words[0], "%u", (unsigned)flags);
    snprintf(words[1], sizeof words[1], "%zu", pairs);
    snprintf(words[2], sizeof words[2], "%d", is_sparse);
    fflush(NULL);
    pid_t child = fork();
    if (child == 0) {
        execl("/proc/self/exe", "c_pieces", ".", what, name, words[0], words[1], words[2], (char *)NULL);
        _exit(2);
    }
    NEED(child > 0 && waitpid(child, &status, 0) == child && WIFEXITED(status) && WEXITSTATUS(status) < 2);
    is_slow = is_slow || status != 0;
}

static void test_memory(void)
{
    make("small", 0, 1000000, 60);
    measure("1,000,000 pairs of 60 bytes", "small", BODDURCI_READ_ONLY, 1000000, 0);
    measure("the same, to write", "small", 0, 1000000, 0);
    make("wide", BODDURCI_WIDE, 1000000, 100);
    measure("1,000,000 pairs of 100 bytes on wide pages", "wide", BODDURCI_WIDE | BODDURCI_READ_ONLY, 1000000, 0);
}

/* ---- files that Boddurci does not write */

static void set_length(const char *name, off_t length)
{
    FILE *file = fopen(name, "a");
    NEED(file != NULL);
    fclose(file);
    NEED(truncate(name, length) == 0);
}

static void refuses(const char *name, uint32_t flags, uint32_t status, const char *text)
{
    NEED(boddurci_open_files(name, flags, &fault) == NULL && fault.status == status);
    NEED(strcmp(fault.text, text) == 0);
}

/* Tests files that consist of one hole: of the greatest length, of one byte more, and of lengths that are not whole pages. */
static void test_holes(void)
{
    static const char bad[] = "bad files: PagLength";
    set_length("hole.pag", GIB);
    measure("a sparse 1 GiB", "hole", BODDURCI_READ_ONLY, 0, 1);
    measure("the same on wide pages", "hole", BODDURCI_WIDE | BODDURCI_READ_ONLY, 0, 1);
    set_length("hole.pag", (off_t)GIB + 1);
    refuses("hole", BODDURCI_READ_ONLY, BODDURCI_TOO_LONG, boddurci_files_text(BODDURCI_TOO_LONG));
    for (int i = 0; i < 2; i++) {
        set_length("hole.pag", i == 0 ? 1023 : (off_t)GIB - 1);
        refuses("hole", 0, BODDURCI_BAD_FILES, bad);
    }
    set_length("hole.pag", (off_t)PIECE * 3 + 1024);
    boddurci_close_files(opened("hole", 0));
    refuses("hole", BODDURCI_WIDE, BODDURCI_BAD_FILES, bad);
}

/* Tests a file with a pair at the end of a long hole, and a file with a pair at the start of the hole. */
static void test_sparse(void)
{
    make("sparse", 0, 50, 100);
    FILE *file = fopen("sparse.pag", "rb+");
    NEED(file != NULL && fseek(file, 0, SEEK_END) == 0);
    NEED(ftell(file) > 0 && fclose(file) == 0);
    set_length("sparse.pag", GIB);
    measure("the same behind 50 pairs", "sparse", BODDURCI_READ_ONLY, 50, 1);
    file = fopen("sparse.pag", "rb+");
    NEED(file != NULL && fseek(file, (long)GIB - 1024, SEEK_SET) == 0 && fputc(1, file) == 1 && fclose(file) == 0);
    refuses("sparse", 0, BODDURCI_BAD_FILES, "bad files: Page(1048575, Count)");
}

static void test_shorter(void)
{
    make("shorter", 0, 30000, 100);
    cut = "shorter.pag", cut_to = 2 * PIECE + 1000;
    refuses("shorter", BODDURCI_READ_ONLY, BODDURCI_BAD_FILES, "bad files: PagLength");
    NEED(cut == NULL);
    make("shorter", 0, 30000, 100);
    cut = "shorter.pag", cut_to = 2 * PIECE;
    boddurci_base *base = opened("shorter", BODDURCI_READ_ONLY);
    size_t left = count_of(base);
    NEED(cut == NULL && left > 0 && left < 30000);
    boddurci_close_files(base);
    base = opened("shorter", BODDURCI_READ_ONLY);
    NEED(count_of(base) == left);
    boddurci_close_files(base);
}

int main(int argc, char **argv)
{
    if (argc < 2 || chdir(argv[1]) != 0)
        return 2;
    if (argc == 7)
        return measured(argv[2], argv[3], (uint32_t)atoi(argv[4]), (size_t)atol(argv[5]), atoi(argv[6]));
    test_shorter();
    test_holes();
    test_sparse();
    test_memory();
    return is_slow;
}
