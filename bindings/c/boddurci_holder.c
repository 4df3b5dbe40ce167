/* Finds the process that holds a lock of a base, in /proc/locks of Linux. */
#define _GNU_SOURCE
#include "boddurci_saves.h"
#include <fcntl.h>
#include <stdio.h>
#include <string.h>
#include <sys/stat.h>
#include <sys/sysmacros.h>
#include <unistd.h>

/* Parses a line of /proc/locks. Returns the process if the line is a flock on this file; -1 if this process cannot see the holder, which may
 * be in another container; otherwise 0. The fields of a line are its number, the kind of the lock, two words on how the lock is held, the
 * process, and the device and inode of the file. The line of a process that waits has an arrow before the kind.
 *
 * Some file systems without a device of their own, such as Btrfs, show another device to stat. So if both devices have the major number 0 and
 * differ, the lock may be on this file, and -1 is returned rather than a process that may have nothing to do with the base. */
static long process_in(const char *line, const struct stat *file)
{
    long process;
    unsigned first, second;
    unsigned long long number;
    if (sscanf(line, "%*[^:]: FLOCK %*s %*s %ld %x:%x:%llu", &process, &first, &second, &number) != 4 || number != file->st_ino)
        return 0;
    if (first == major(file->st_dev) && second == minor(file->st_dev))
        return process > 0 ? process : -1;
    return first == 0 && major(file->st_dev) == 0 ? -1 : 0;
}

/* The lines of a file of /proc, as far as they are read. */
struct lines {
    char room[4096];
    size_t length;
};

/* Looks for a process in the whole lines that were read, and keeps the rest. Keeps the result of an earlier line if no line has a holder. */
static long find_in(struct lines *lines, const struct stat *file, long process)
{
    char *at = lines->room, *end;
    while (process <= 0 && (end = memchr(at, '\n', lines->length)) != NULL) {
        *end = 0;
        long next = process_in(at, file);
        process = next != 0 ? next : process;
        lines->length -= (size_t)(end + 1 - at);
        at = end + 1;
    }
    memmove(lines->room, at, lines->length);
    return process;
}

/* Reads only the beginning of the file: Linux takes a time for it that rises with the square of its length, even for locks of other users on
 * other files. */
long boddurci_holder_of(const struct boddurci_place *place, enum boddurci_file lock)
{
    enum { MOST = 65536 };
    struct stat found;
    struct lines lines = {.length = 0};
    long process = 0;
    ssize_t got = 1;
    if (boddurci_look(place->folder, place->names[lock], AT_SYMLINK_NOFOLLOW, &found) != 0)
        return 0;
    int locks = boddurci_open_at(AT_FDCWD, "/proc/locks", O_RDONLY, 0);
    for (size_t left = MOST; locks >= 0 && process <= 0 && got > 0; left -= (size_t)got) {
        size_t room = sizeof lines.room - lines.length;
        got = read(locks, lines.room + lines.length, room < left ? room : left);
        got = got > 0 ? got : 0;
        lines.length += (size_t)got;
        process = find_in(&lines, &found, process);
    }
    if (locks >= 0)
        close(locks);
    return process;
}

/* Gets the name of a process for the text of a fault. */
static void name_of(long process, char *shown, size_t size)
{
    char path[40], name[40];
    snprintf(path, sizeof path, "/proc/%ld/comm", process);
    int file = boddurci_open_at(AT_FDCWD, path, O_RDONLY, 0);
    ssize_t got = file >= 0 ? read(file, name, sizeof name - 1) : 0;
    if (file >= 0)
        close(file);
    name[got > 0 ? got : 0] = 0;
    name[strcspn(name, "\n")] = 0;
    boddurci_show_name(shown, size, name);
}

uint32_t boddurci_fail_locked(const struct boddurci_place *place, int reads, boddurci_fault *fault)
{
    char name[60] = "";
    long writer = reads ? 0 : boddurci_holder_of(place, BODDURCI_WRITER), process = writer > 0 ? writer : boddurci_holder_of(place, BODDURCI_LOCK);
    const char *what = writer > 0 ? "has the database open to be written" : "uses the files";
    if (process > 0)
        name_of(process, name, sizeof name);
    boddurci_fail(fault, BODDURCI_LOCKED, 0, boddurci_files_text(BODDURCI_LOCKED));
    if (process > 0)
        snprintf(fault->text, sizeof fault->text, "process %ld%s%s%s %s", process, name[0] ? " (" : "", name, name[0] ? ")" : "", what);
    return fault->status;
}
