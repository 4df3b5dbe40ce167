/* The texts of statuses and faults, the version, and stock programs by name. */
#define _POSIX_C_SOURCE 200809L
#include "boddurci_saves.h"
#include <errno.h>
#include <stdio.h>
#include <string.h>

const char *boddurci_version(void)
{
    return BODDURCI_VERSION;
}

uint32_t boddurci_stock(boddurci *db, const char *name, uint32_t *number)
{
    return db != NULL ? boddurci_submit_stock(db, (const uint8_t *)name, strlen(name), number) : BODDURCI_IS_CLOSED;
}

const char *boddurci_files_text(uint32_t status)
{
    switch (status) {
    case BODDURCI_FILE_FAILED: return "a call of the system failed";
    case BODDURCI_LOCKED: return "another process has the database open to be written, or uses its files";
    case BODDURCI_BAD_REDO: return "the redo file is marked, and is not of these files";
    case BODDURCI_NO_SAVE: return "it was opened to be read only";
    case BODDURCI_TOO_LONG: return "a file is too long";
    case BODDURCI_UNSAFE: return "a file beside the database may be a stranger's, and is not taken";
    case BODDURCI_MOVED: return "the files are others than were opened";
    case BODDURCI_FORKED: return "it was opened by another process";
    case BODDURCI_BAD_NAME: return "no name of a database";
    case BODDURCI_INTERRUPTED: return "a signal came while the lock was waited for";
    case BODDURCI_OPEN_HERE: return "this thread has it open already";
    case BODDURCI_OTHER_SIZE: return "the pages look small, and a change with wide ones would destroy them";
    default: return boddurci_text(status);
    }
}

/* ---- names */

/* Decodes a UTF-8 character and sets *bytes to its length. Returns 0 if the bytes are invalid. */
static uint32_t character_at(const uint8_t *at, size_t *bytes)
{
    static const uint32_t least[5] = {0, 0, 0x80, 0x800, 0x10000};
    size_t count = at[0] < 0x80 ? 1 : at[0] < 0xc2 ? 0 : at[0] < 0xe0 ? 2 : at[0] < 0xf0 ? 3 : at[0] < 0xf5 ? 4 : 0;
    uint32_t character = count == 1 ? at[0] : at[0] & (0x7fu >> count);
    for (size_t i = 1; i < count; i++) {
        if ((at[i] & 0xc0) != 0x80)
            return 0;
        character = character << 6 | (at[i] & 0x3fu);
    }
    *bytes = count;
    if (count == 0 || character < least[count] || character > 0x10ffff || (character >= 0xd800 && character <= 0xdfff))
        return 0;
    return character;
}

/* Returns whether a character is shown unescaped: it is not a backslash, a control, a line separator or a bidirectional control. */
static int is_plain(uint32_t character)
{
    if (character < 0x20 || (character >= 0x7f && character < 0xa0) || character == '\\')
        return 0;
    int is_mark = character == 0x61c || character == 0x200e || character == 0x200f;
    int is_turn = (character >= 0x202a && character <= 0x202e) || (character >= 0x2066 && character <= 0x2069);
    return !is_mark && !is_turn && character != 0x2028 && character != 0x2029;
}

/* Copies a character, escaped if necessary, or escapes an invalid byte. Returns the number of bytes that it has read. */
static size_t show_next(const uint8_t *at, char *shown, size_t size)
{
    size_t bytes = 0;
    uint32_t character = character_at(at, &bytes);
    if (character == 0)
        snprintf(shown, size, "\\x%02x", at[0]);
    else if (is_plain(character))
        snprintf(shown, size, "%.*s", (int)bytes, (const char *)at);
    else
        snprintf(shown, size, "\\u{%x}", (unsigned)character);
    return character == 0 ? 1 : bytes;
}

void boddurci_show_name(char *room, size_t size, const char *name)
{
    static const char more[] = "...";
    const uint8_t *at = (const uint8_t *)name;
    size_t length = 0;
    char next[16];
    room[0] = 0;
    while (*at != 0) {
        at += show_next(at, next, sizeof next);
        if (length + strlen(next) + sizeof more > size) {
            memcpy(room + length, more, sizeof more);
            return;
        }
        memcpy(room + length, next, strlen(next) + 1);
        length += strlen(next);
    }
}

/* ---- faults */

/* Returns the system's text for an errno. strerror may share its buffer between threads; strerror_r has one of two signatures. */
static const char *words_of(int system, char *room, size_t size)
{
    room[0] = 0;
#if defined __GLIBC__ && defined _GNU_SOURCE
    return strerror_r(system, room, size);
#else
    if (strerror_r(system, room, size) != 0)
        snprintf(room, size, "errno %d", system);
    return room;
#endif
}

uint32_t boddurci_fail(boddurci_fault *fault, uint32_t status, int system, const char *what)
{
    char words[100];
    fault->status = status;
    fault->system = system;
    if (system != 0)
        snprintf(fault->text, sizeof fault->text, "%s: %s", what, words_of(system, words, sizeof words));
    else
        snprintf(fault->text, sizeof fault->text, "%s", what);
    return status;
}

uint32_t boddurci_no_fault(boddurci_fault *fault)
{
    return boddurci_fail(fault, BODDURCI_DONE, 0, boddurci_text(BODDURCI_DONE));
}

uint32_t boddurci_no_memory(boddurci_fault *fault)
{
    return boddurci_fail(fault, BODDURCI_NO_MEMORY, 0, boddurci_text(BODDURCI_NO_MEMORY));
}

uint32_t boddurci_fail_by_system(boddurci_fault *fault, const char *what)
{
    if (errno == ENOMEM)
        return boddurci_no_memory(fault);
    if (errno == ESTALE)
        return boddurci_fail(fault, BODDURCI_MOVED, 0, "BASE.pag or BASE.dir is another file than was opened, and nothing was written");
    return boddurci_fail(fault, BODDURCI_FILE_FAILED, errno, what);
}
