/* Reads a file into memory, whole or as pages in pieces. boddurci_read_bytes and boddurci_read_pages do not read holes, and never write
 * the memory for them. So a sparse file takes no more memory than it has blocks on the disk. */
#define _GNU_SOURCE
#include "boddurci_saves.h"
#include <errno.h>
#include <fcntl.h>
#include <stdlib.h>
#include <string.h>
#include <sys/mman.h>
#include <sys/stat.h>
#include <sys/uio.h>
#include <unistd.h>

void boddurci_let_go(struct boddurci_bytes *bytes)
{
    if (bytes->room != 0)
        munmap(bytes->at, bytes->room);
    else
        free(bytes->at);
    bytes->at = NULL;
    bytes->length = bytes->room = 0;
}

/* Maps zeroed memory without huge pages: with huge pages each block of data would take 2 MiB. */
static void *map(size_t room)
{
    void *at = mmap(NULL, room, PROT_READ | PROT_WRITE, MAP_PRIVATE | MAP_ANONYMOUS | MAP_NORESERVE, -1, 0);
#ifdef MADV_NOHUGEPAGE
    if (at != MAP_FAILED)
        (void)!madvise(at, room, MADV_NOHUGEPAGE);
#endif
    return at;
}

int boddurci_set_length(struct boddurci_bytes *bytes, size_t length)
{
    if (length > bytes->room) {
        void *at = bytes->at == NULL ? map(length) : mremap(bytes->at, bytes->room, length, MREMAP_MAYMOVE);
        if (at == MAP_FAILED)
            return -1;
        bytes->at = at;
        bytes->room = length;
    }
    bytes->length = length;
    return 0;
}

/* Reads a range of a file into a buffer, up to the end of the file. Returns the offset after the last byte that was read, or -1. */
static off_t read_range(int file, uint8_t *room, off_t from, off_t to)
{
    for (off_t start = from; from < to;) {
        ssize_t got = pread(file, room + (from - start), (size_t)(to - from), from);
        if (got == 0)
            break;
        if (got < 0 && errno != EINTR)
            return -1;
        from += got < 0 ? 0 : got;
    }
    return from;
}

/* Returns the present length of a file, but at least `at` and at most `end`. The file had `end` bytes, with no data from `at` on, and may
 * have become shorter. */
static off_t end_after(int file, off_t at, off_t end)
{
    struct stat now;
    if (fstat(file, &now) != 0 || now.st_size >= end)
        return end;
    return now.st_size > at ? now.st_size : at;
}

/* Returns the offset of the first data at or after `at`, or `end` if only a hole follows. Sets *to to the end of that data. If the file
 * system does not report holes, everything counts as data. */
static off_t find_data(int file, off_t at, off_t end, off_t *to)
{
    *to = end;
#ifdef SEEK_DATA
    off_t from = lseek(file, at, SEEK_DATA), hole = from < 0 ? -1 : lseek(file, from, SEEK_HOLE);
    if (from < 0 && errno == ENXIO)
        return end;
    if (from >= 0 && hole > from) {
        *to = hole < end ? hole : end;
        return from;
    }
#else
    (void)file;
#endif
    return at;
}

int boddurci_read_bytes(int file, size_t length, struct boddurci_bytes *bytes)
{
    if (length == 0)
        return 0;
    if (boddurci_set_length(bytes, length) != 0)
        return -1;
    off_t end = (off_t)length, to;
    for (off_t at = 0; at < end; at = to) {
        off_t from = find_data(file, at, end, &to);
        off_t found = from < end ? read_range(file, bytes->at + from, from, to) : end_after(file, at, end);
        if (found < 0)
            return -1;
        if (found < to) {
            /* The file has become shorter. */
            bytes->length = (size_t)found;
            return 0;
        }
    }
    return 0;
}

int boddurci_read_short(int file, size_t length, struct boddurci_bytes *bytes)
{
    bytes->at = malloc(length + 1);
    if (bytes->at == NULL)
        return -1;
    off_t found = read_range(file, bytes->at, 0, (off_t)length);
    bytes->length = found < 0 ? 0 : (size_t)found;
    return found < 0 ? -1 : 0;
}

/* ---- whole files */

size_t boddurci_most_bytes(enum boddurci_file file)
{
    static const size_t most[3] = {1073741824, 268435456, 2698000000};
    return most[file];
}

uint32_t boddurci_length_of(int opened, enum boddurci_file file, size_t *length, boddurci_fault *fault)
{
    struct stat found;
    if (boddurci_look_at(opened, &found) != 0)
        return boddurci_fail_by_system(fault, "a file cannot be read");
    if (found.st_size > (off_t)boddurci_most_bytes(file))
        return boddurci_fail(fault, BODDURCI_TOO_LONG, 0, boddurci_files_text(BODDURCI_TOO_LONG));
    *length = (size_t)found.st_size;
    return BODDURCI_DONE;
}

uint32_t boddurci_read_all(int opened, enum boddurci_file file, struct boddurci_bytes *bytes, boddurci_fault *fault)
{
    size_t length;
    uint32_t status = boddurci_length_of(opened, file, &length, fault);
    if (status != BODDURCI_DONE)
        return status;
    return boddurci_read_bytes(opened, length, bytes) == 0 ? status : boddurci_fail_by_system(fault, "a file cannot be read");
}

uint32_t boddurci_open_to_read(struct boddurci_place *place, enum boddurci_file file, int must_exist, int *opened, boddurci_fault *fault)
{
    *opened = boddurci_open_data(place, file, O_RDONLY);
    if (*opened >= 0 || (errno == ENOENT && !must_exist))
        return BODDURCI_DONE;
    return boddurci_fail_by_system(fault, "a file cannot be opened");
}

uint32_t boddurci_read_data(struct boddurci_place *place, enum boddurci_file file, struct boddurci_bytes *bytes, boddurci_fault *fault)
{
    int opened;
    uint32_t status = boddurci_open_to_read(place, file, 0, &opened, fault);
    if (status != BODDURCI_DONE || opened < 0)
        return status;
    status = boddurci_read_all(opened, file, bytes, fault);
    close(opened);
    return status;
}

/* ---- pages, in pieces */

/* A number of whole pages of either size. */
enum { PIECE = 262144 };

/* Passes the next piece to the reading. The only possible fault is NO_MEMORY: each piece except the last consists of whole pages, and all
 * pieces together have at most 1 GiB. */
static int push(boddurci_reading *pages, uint32_t is_wide, const uint8_t *piece, size_t length)
{
    if (boddurci_read(pages, is_wide, piece, length) == BODDURCI_DONE)
        return 0;
    errno = ENOMEM;
    return -1;
}

/* Passes zeros from a small buffer, which stays in the processor's cache. */
static int push_zeros(boddurci_reading *pages, uint32_t is_wide, size_t length)
{
    static const uint8_t zeros[32768];
    for (size_t done = 0, next; done < length; done += next) {
        next = length - done < sizeof zeros ? length - done : sizeof zeros;
        if (push(pages, is_wide, zeros, next) != 0)
            return -1;
    }
    return 0;
}

/* Reads a file to its end, which may come earlier than expected if the file has become shorter meanwhile. */
static int read_pieces(int file, off_t end, uint32_t is_wide, boddurci_reading *pages, uint8_t *room)
{
    off_t next, found, to;
    for (off_t at = 0; at < end; at += next) {
        off_t from = find_data(file, at, end, &to);
        if (from == end)
            end = end_after(file, at, end);
        next = from < end ? (from - at) / PIECE * PIECE : end - at;
        if (next != 0 || at == end) {
            if (push_zeros(pages, is_wide, (size_t)next) != 0)
                return -1;
            continue;
        }
        next = end - at < PIECE ? end - at : PIECE;
        found = read_range(file, room, at, at + next);
        if (found < 0 || push(pages, is_wide, room, (size_t)(found - at)) != 0)
            return -1;
        if (found < at + next)
            return 0;
    }
    return 0;
}

int boddurci_has_data(int file, size_t length)
{
    off_t to;
    return find_data(file, 0, (off_t)length, &to) < (off_t)length;
}

int boddurci_read_pages(int file, size_t length, uint32_t is_wide, boddurci_reading *pages)
{
    uint8_t *room = malloc(PIECE);
    if (room == NULL)
        return -1;
    int is_read = read_pieces(file, (off_t)length, is_wide, pages, room);
    free(room);
    return is_read;
}

int boddurci_move_pages(struct boddurci_bytes *bytes, uint32_t is_wide, boddurci_reading *pages)
{
    for (size_t at = 0, next; at < bytes->length; at += next) {
        next = bytes->length - at < PIECE ? bytes->length - at : PIECE;
        if (push(pages, is_wide, bytes->at + at, next) != 0)
            return -1;
        if (bytes->room != 0)
            (void)!madvise(bytes->at + at, next, MADV_DONTNEED);
    }
    boddurci_let_go(bytes);
    return 0;
}

/* Reads bytes of a file by one system call. If `is_cached` is 1, fails instead of waiting for the disk. */
static ssize_t read_some(int opened, uint64_t at, uint8_t *room, size_t size, int is_cached)
{
    if (!is_cached)
        return pread(opened, room, size, (off_t)at);
#ifdef RWF_NOWAIT
    const struct iovec piece = {room, size};
    return preadv2(opened, &piece, 1, (off_t)at, RWF_NOWAIT);
#else
    errno = EAGAIN;
    return -1;
#endif
}

static int read_whole(int opened, uint64_t at, uint8_t *room, size_t size, int is_cached)
{
    for (size_t done = 0; done < size;) {
        ssize_t got = read_some(opened, at + done, room + done, size - done, is_cached);
        if (got < 0 && errno != EINTR)
            return -1;
        if (got == 0) {
            memset(room + done, 0, size - done);
            return 0;
        }
        done += got < 0 ? 0 : (size_t)got;
    }
    return 0;
}

int boddurci_read_at(int opened, uint64_t at, uint8_t *room, size_t size)
{
    return read_whole(opened, at, room, size, 0);
}

int boddurci_read_cached(int opened, uint64_t at, uint8_t *room, size_t size)
{
    return read_whole(opened, at, room, size, 1);
}
