/* Saves from C. tests/c_crashes interrupts these saves.
 *
 *     c_saves list BASE      opens the base for reading, and prints all pairs in hex
 *     c_saves change BASE    makes the changes on standard input, `replace KEY VALUE` and `delete KEY` in hex, saves, and prints `saved`;
 *                            reports on standard error if only the redo file has the save
 *     c_saves insist BASE    like `change`, but saves once more if the save fails
 *     c_saves each BASE      saves after each line, prints `saved` and the number of lines so far, and continues if a save fails; for the
 *                            line `rest` it sleeps a little longer than a second
 *     c_saves over BASE      like `each`, but overwrites the changes of another program */
#define _POSIX_C_SOURCE 200809L
#include "boddurci_files.h"
#include <stdio.h>
#include <string.h>
#include <time.h>
#include <unistd.h>

static boddurci_fault fault;

static int fail(void)
{
    fprintf(stderr, "c_saves: %s\n", fault.text);
    return 2;
}

/* Prints immediately, by a call that tests/cut.c logs. */
static void say(const char *text)
{
    if (write(1, text, strlen(text)) < 0)
        fail();
}

static void print_hex(const uint8_t *bytes, size_t length, const char *end)
{
    for (size_t i = 0; i < length; i++)
        printf("%02x", bytes[i]);
    fputs(end, stdout);
}

static int list(const char *name)
{
    static uint8_t key[BODDURCI_VALUE_MOST], value[BODDURCI_VALUE_MOST];
    size_t key_length, value_length;
    boddurci_cursor cursor = BODDURCI_START;
    boddurci_base *base = boddurci_open_files(name, BODDURCI_READ_ONLY, &fault);
    if (base == NULL)
        return fail();
    boddurci *db = boddurci_take(base);
    boddurci_first(db, &cursor);
    while (boddurci_next(db, &cursor, key, sizeof key, &key_length, value, sizeof value, &value_length) == BODDURCI_DONE) {
        print_hex(key, key_length, " ");
        print_hex(value, value_length, "\n");
    }
    boddurci_give(base);
    boddurci_close_files(base);
    return 0;
}

static size_t read_hex(const char *text, uint8_t *bytes)
{
    size_t length = 0;
    unsigned byte;
    while (sscanf(text + 2 * length, "%2x", &byte) == 1)
        bytes[length++] = (uint8_t)byte;
    return length;
}

/* Makes the change of a line. Returns whether the line is valid. */
static int change(boddurci *db, const char *line)
{
    static char words[2][4100];
    static uint8_t key[2050], value[2050];
    static const struct timespec rest = {1, 100000000};
    if (strcmp(line, "rest\n") == 0)
        return nanosleep(&rest, NULL) == 0;
    int count = sscanf(line, "replace %4095s %4095s", words[0], words[1]);
    if (count == 2)
        return boddurci_store(db, key, read_hex(words[0], key), value, read_hex(words[1], value), 1) == BODDURCI_DONE;
    return sscanf(line, "delete %4095s", words[0]) == 1 && boddurci_delete(db, key, read_hex(words[0], key)) <= BODDURCI_MISSING;
}

static int change_all(const char *name, int saves_each, int insists, uint32_t flags)
{
    static char line[8300];
    char saved[32];
    boddurci_base *base = boddurci_open_files(name, 0, &fault);
    if (base == NULL)
        return fail();
    int status = 0, count = 0;
    while (status == 0 && fgets(line, sizeof line, stdin) != NULL) {
        status = change(boddurci_take(base), line) ? 0 : 3;
        boddurci_give(base);
        count++;
        snprintf(saved, sizeof saved, "saved %d\n", count);
        if (saves_each && boddurci_save_with(base, flags, &fault) == BODDURCI_DONE)
            say(saved);
        else if (saves_each)
            fail();
    }
    if (status == 0 && boddurci_save(base, &fault) != BODDURCI_DONE)
        status = insists && boddurci_save(base, &fault) == BODDURCI_DONE ? 0 : fail();
    if (status == 0 && fault.system != 0)
        fprintf(stderr, "c_saves: %s\n", fault.text);
    if (status == 0)
        say("saved\n");
    boddurci_close_files(base);
    return status;
}

int main(int argc, char **argv)
{
    if (argc == 3 && strcmp(argv[1], "list") == 0)
        return list(argv[2]);
    if (argc == 3 && strcmp(argv[1], "change") == 0)
        return change_all(argv[2], 0, 0, 0);
    if (argc == 3 && strcmp(argv[1], "insist") == 0)
        return change_all(argv[2], 0, 1, 0);
    if (argc == 3 && strcmp(argv[1], "each") == 0)
        return change_all(argv[2], 1, 0, 0);
    if (argc == 3 && strcmp(argv[1], "over") == 0)
        return change_all(argv[2], 1, 0, BODDURCI_INSIST);
    return 4;
}
