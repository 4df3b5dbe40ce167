/* Reads and writes the notes that calls of shared bases leave in BASE.lock. One note has the end of the records, and the end of those that are
 * applied to both data files. So the next call appends its record at the end, without recovering the log. The other note has the end of the
 * records that are flushed. Both are valid if the header of the log has their epoch. docs/DESIGN.md defines the bytes under "The log of
 * saves". */
#define _GNU_SOURCE
#include "boddurci_saves.h"
#include <errno.h>
#include <fcntl.h>
#include <string.h>
#include <sys/stat.h>
#include <time.h>
#include <unistd.h>

enum { HEADER = BODDURCI_RECORDS_AT, WORD = 8 };

/* The bytes of the header of a log: whether several records may be unflushed, and a signature and the epoch of the notes. An earlier version
 * of the library had a note with this signature in the OLD_NOTES bytes from NOTE_AT on, and clears these bytes when it opens the log. */
enum { SHARED_AT = 9, NOTE_AT = 16, EPOCH_AT = NOTE_AT + WORD, LOOKED = EPOCH_AT + WORD, OLD_NOTES = 160 };
_Static_assert(BODDURCI_HEADER_USED == NOTE_AT + OLD_NOTES, "the mark, the signature and the notes");
static const uint8_t LOG_SIGNATURE[8] = "sdbmlog1", EPOCH_SIGNATURE[8] = "sdbmnot2", NOTE_SIGNATURE[8] = "sdbmnot5";
enum { ANY_VERSION = 7 }; /* bytes of the signature */

/* The notes, as words of 8 bytes, the lowest byte first. The second note, and the epoch of a log whose flush has failed, are written without
 * the locks. */
enum { SIGNATURE, END, ROOM, COUNT, APPLIED, LAST, WITNESS, EPOCH, BOOT, STATES = BOOT + 2, CHECK = STATES + 8, NOTE_WORDS };
enum { OF_EPOCH, FLUSHED, FLUSHED_CHECK, FLUSHED_WORDS };
enum { FLUSHED_AT = NOTE_WORDS * WORD, FAILED_AT = FLUSHED_AT + FLUSHED_WORDS * WORD, NOTES_LENGTH = FAILED_AT + WORD };

/* ---- bytes */

static int write_at(int opened, off_t at, const uint8_t *bytes, size_t length)
{
    ssize_t put;
    do
        put = pwrite(opened, bytes, length, at);
    while (put < 0 && errno == EINTR);
    return put == (ssize_t)length ? 0 : -1;
}

/* Both functions are without loops, so that the compiler makes one access of each. */
static uint64_t word_at(const uint8_t *at)
{
    return (uint64_t)at[0] | (uint64_t)at[1] << 8 | (uint64_t)at[2] << 16 | (uint64_t)at[3] << 24 | (uint64_t)at[4] << 32 |
           (uint64_t)at[5] << 40 | (uint64_t)at[6] << 48 | (uint64_t)at[7] << 56;
}

static void put_word(uint8_t *at, uint64_t word)
{
    at[0] = (uint8_t)word;
    at[1] = (uint8_t)(word >> 8);
    at[2] = (uint8_t)(word >> 16);
    at[3] = (uint8_t)(word >> 24);
    at[4] = (uint8_t)(word >> 32);
    at[5] = (uint8_t)(word >> 40);
    at[6] = (uint8_t)(word >> 48);
    at[7] = (uint8_t)(word >> 56);
}

/* Adds a word to a hash: that of FNV-1a, with words instead of bytes. */
static uint64_t hashed(uint64_t hash, uint64_t word)
{
    return (hash ^ word) * 1099511628211u;
}

static const uint64_t FIRST_HASH = 14695981039346656037u;

/* Returns the hash of the words of a note, by which a partly written note is detected. */
static uint64_t check_of(const uint8_t *bytes, int words)
{
    uint64_t check = FIRST_HASH;
    for (int i = 0; i < words; i++)
        check = hashed(check, word_at(bytes + i * WORD));
    return check;
}

uint64_t boddurci_witness_of(const uint8_t *bytes, size_t length)
{
    uint64_t witness = FIRST_HASH;
    size_t at = 0;
    for (; length - at >= WORD; at += WORD)
        witness = hashed(witness, word_at(bytes + at));
    for (; at < length; at++)
        witness = hashed(witness, bytes[at]);
    return witness;
}

/* ---- states of the data files */

struct boddurci_note boddurci_state_of(int folder, const char *name, int how, int has_times)
{
    struct stat is;
    struct boddurci_note state;
    memset(&state, 0, sizeof state);
    if ((has_times ? fstatat(folder, name, &is, how) : boddurci_look(folder, name, how, &is)) != 0)
        return state;
    state.is_there = 1;
    state.device = is.st_dev;
    state.number = is.st_ino;
    state.length = is.st_size;
    if (has_times)
        state.written = is.st_mtim, state.changed = is.st_ctim;
    return state;
}

static uint64_t nanoseconds(struct timespec time)
{
    return (uint64_t)time.tv_sec * 1000000000u + (uint64_t)time.tv_nsec;
}

/* Sets four words to the state of a file, or to zeros if it is missing. The time is 0 if it was not read. */
static void put_state(uint64_t words[4], const struct boddurci_note *state)
{
    memset(words, 0, 4 * sizeof *words);
    if (!state->is_there)
        return;
    words[0] = (uint64_t)state->device;
    words[1] = (uint64_t)state->number;
    words[2] = (uint64_t)state->length;
    words[3] = nanoseconds(state->changed);
}

/* ---- notes */

void boddurci_boot_of_system(struct boddurci_boot *boot)
{
    char text[36];
    int digits = 0, file = boddurci_open_at(AT_FDCWD, "/proc/sys/kernel/random/boot_id", O_RDONLY, 0);
    memset(boot, 0, sizeof *boot);
    if (file < 0)
        return;
    ssize_t got = read(file, text, sizeof text);
    close(file);
    for (ssize_t i = 0; i < got; i++) {
        int digit = text[i] >= '0' && text[i] <= '9' ? text[i] - '0' : text[i] >= 'a' && text[i] <= 'f' ? text[i] - 'a' + 10 : -1;
        if (digit >= 0 && digits < 32) {
            boot->id[digits / 16] = boot->id[digits / 16] << 4 | (uint64_t)digit;
            digits++;
        }
    }
    boot->is_known = digits == 32;
}

/* Returns the end of the flushed records of a log: the flushed end, if it belongs to this log, or the end of the applied records. */
static uint64_t flushed_of(const uint8_t *bytes, uint64_t epoch, uint64_t applied)
{
    int is_whole = word_at(bytes + FLUSHED_CHECK * WORD) == check_of(bytes, FLUSHED_CHECK);
    uint64_t flushed = is_whole && word_at(bytes + OF_EPOCH * WORD) == epoch ? word_at(bytes + FLUSHED * WORD) : 0;
    return flushed > applied ? flushed : applied;
}

/* Reads a note from the bytes of BASE.lock. Returns 0 if they have no note of this epoch and this boot. */
static int note_of(const uint8_t bytes[NOTES_LENGTH], uint64_t epoch, const struct boddurci_boot *boot, struct boddurci_log_note *note)
{
    int is_note = memcmp(bytes, NOTE_SIGNATURE, WORD) == 0 && word_at(bytes + EPOCH * WORD) == epoch;
    if (!is_note || !boot->is_known || word_at(bytes + CHECK * WORD) != check_of(bytes, CHECK))
        return 0;
    if (word_at(bytes + BOOT * WORD) != boot->id[0] || word_at(bytes + (BOOT + 1) * WORD) != boot->id[1])
        return 0;
    note->log.end = (size_t)word_at(bytes + END * WORD);
    note->log.room = (size_t)word_at(bytes + ROOM * WORD);
    note->log.count = (size_t)word_at(bytes + COUNT * WORD);
    note->applied = (size_t)word_at(bytes + APPLIED * WORD);
    note->last = (size_t)word_at(bytes + LAST * WORD);
    note->witness = word_at(bytes + WITNESS * WORD);
    note->epoch = epoch;
    note->flushed = flushed_of(bytes + FLUSHED_AT, epoch, note->applied);
    note->has_failed = word_at(bytes + FAILED_AT) == epoch;
    for (int i = 0; i < 8; i++)
        note->states[i] = word_at(bytes + (STATES + i) * WORD);
    size_t end = note->log.end;
    int has_last = note->last < end && end - note->last <= BODDURCI_WITNESS_MOST;
    return has_last && note->applied <= end && end <= note->log.room && note->log.count <= end;
}

/* Returns whether the header of a log has the signature of notes, of this version or of any. */
static int is_noted(const uint8_t header[LOOKED], int is_any)
{
    return memcmp(header + 1, LOG_SIGNATURE, WORD) == 0 && memcmp(header + NOTE_AT, EPOCH_SIGNATURE, is_any ? ANY_VERSION : WORD) == 0;
}

/* Reads the notes. The result is NOTED even if a flush has failed. */
static enum boddurci_noted read_notes(int redo, int lock, const struct boddurci_boot *boot, struct boddurci_log_note *note)
{
    uint8_t header[LOOKED], bytes[NOTES_LENGTH];
    if (boddurci_read_at(redo, 0, header, sizeof header) != 0)
        return BODDURCI_UNKNOWN;
    if (header[0] != 1)
        return BODDURCI_UNMARKED;
    if (lock < 0 || !is_noted(header, 0) || boddurci_read_at(lock, 0, bytes, sizeof bytes) != 0)
        return BODDURCI_UNKNOWN;
    note->is_shared = header[SHARED_AT] == 1;
    return note_of(bytes, word_at(header + EPOCH_AT), boot, note) ? BODDURCI_NOTED : BODDURCI_UNKNOWN;
}

enum boddurci_noted boddurci_read_note(int redo, int lock, const struct boddurci_boot *boot, struct boddurci_log_note *note)
{
    enum boddurci_noted noted = read_notes(redo, lock, boot, note);
    return noted == BODDURCI_NOTED && note->has_failed ? BODDURCI_UNKNOWN : noted;
}

int boddurci_has_room(int redo, const struct boddurci_log_note *note)
{
    struct stat found;
    return boddurci_look_at(redo, &found) == 0 && found.st_size >= HEADER && note->log.room <= (uint64_t)found.st_size - HEADER;
}

/* Returns whether the last bytes of the records have this witness, and only zeros follow them. */
static int is_end(const uint8_t *bytes, size_t length, uint64_t witness)
{
    return boddurci_witness_of(bytes, length) == witness && word_at(bytes + length) == 0;
}

/* Like boddurci_read_note, but also tests whether the file has the room in the note, and whether its records end where the note says. */
static enum boddurci_noted find_note(int redo, int lock, const struct boddurci_boot *boot, struct boddurci_log_note *note)
{
    uint8_t bytes[BODDURCI_WITNESS_MOST + BODDURCI_NEXT];
    enum boddurci_noted noted = boddurci_read_note(redo, lock, boot, note);
    if (noted != BODDURCI_NOTED)
        return noted;
    size_t length = note->log.end - note->last;
    int is_read = boddurci_has_room(redo, note) && boddurci_read_at(redo, HEADER + note->last, bytes, length + BODDURCI_NEXT) == 0;
    return is_read && is_end(bytes, length, note->witness) ? BODDURCI_NOTED : BODDURCI_UNKNOWN;
}

enum boddurci_noted boddurci_look_at_note(int redo, int lock, const struct boddurci_boot *boot, struct boddurci_log_note *note)
{
    enum { TRIES = 10 };
    enum boddurci_noted noted = BODDURCI_UNKNOWN;
    for (int tries = 0; tries < TRIES && noted == BODDURCI_UNKNOWN; tries++)
        noted = read_notes(redo, lock, boot, note);
    return noted;
}

enum boddurci_change boddurci_change_since(const struct boddurci_log_note *note, const struct boddurci_note files[2])
{
    enum boddurci_change change = BODDURCI_SAME;
    for (enum boddurci_file file = BODDURCI_PAGES; file <= BODDURCI_DIRECTORY; file++) {
        uint64_t is[4];
        const uint64_t *was = note->states + 4 * file;
        put_state(is, &files[file]);
        if (is[0] != was[0] || is[1] != was[1])
            return BODDURCI_OTHERS;
        if (is[2] != was[2] || is[3] > was[3])
            change = BODDURCI_WRITTEN;
    }
    return change;
}

int boddurci_is_written_since(const struct boddurci_log_note *note, const struct boddurci_note files[2])
{
    for (enum boddurci_file file = BODDURCI_PAGES; file <= BODDURCI_DIRECTORY; file++)
        if (files[file].is_there && nanoseconds(files[file].written) > note->states[4 * file + 3])
            return 1;
    return 0;
}

int boddurci_have_lengths(const struct boddurci_log_note *note, const struct boddurci_note files[2])
{
    return (uint64_t)files[BODDURCI_PAGES].length == note->states[2] && (uint64_t)files[BODDURCI_DIRECTORY].length == note->states[6];
}

void boddurci_take_times(const struct boddurci_log_note *note, struct boddurci_notes *notes)
{
    enum { SECOND = 1000000000 };
    uint64_t latest = 0;
    for (enum boddurci_file file = BODDURCI_PAGES; file <= BODDURCI_DIRECTORY; file++) {
        uint64_t time = note->states[4 * file + 3];
        latest = time > latest ? time : latest;
        notes->files[file].changed = (struct timespec){(time_t)(time / SECOND), (long)(time % SECOND)};
        notes->files[file].written = notes->files[file].changed;
    }
    notes->latest = (struct timespec){(time_t)(latest / SECOND), (long)(latest % SECOND)};
}

int boddurci_is_applied(struct boddurci_place *place, int redo, boddurci_log *log)
{
    struct boddurci_boot boot;
    struct boddurci_log_note note;
    struct boddurci_note files[2];
    boddurci_boot_of_system(&boot);
    if (find_note(redo, boddurci_notes_of(place), &boot, &note) != BODDURCI_NOTED || note.applied != note.log.end)
        return 0;
    if (!boddurci_are_notes_right(place, redo, &note))
        return 0;
    for (enum boddurci_file file = BODDURCI_PAGES; file <= BODDURCI_DIRECTORY; file++)
        files[file] = boddurci_state_of(place->folder, place->names[file], 0, 0);
    *log = note.log;
    return boddurci_change_since(&note, files) != BODDURCI_OTHERS;
}

uint64_t boddurci_new_epoch(void)
{
    struct timespec time;
    clock_gettime(CLOCK_REALTIME, &time);
    return nanoseconds(time);
}

int boddurci_put_note(int lock, const struct boddurci_boot *boot, const struct boddurci_log_note *note, const struct boddurci_note files[2])
{
    uint64_t words[NOTE_WORDS] = {0,          note->log.end, note->log.room, note->log.count, note->applied,
                                  note->last, note->witness, note->epoch,    boot->id[0],     boot->id[1]};
    uint8_t bytes[NOTE_WORDS * WORD];
    if (!boot->is_known)
        return 0;
    put_state(words + STATES, &files[BODDURCI_PAGES]);
    put_state(words + STATES + 4, &files[BODDURCI_DIRECTORY]);
    for (int i = 0; i < NOTE_WORDS; i++)
        put_word(bytes + i * WORD, words[i]);
    memcpy(bytes, NOTE_SIGNATURE, WORD);
    put_word(bytes + CHECK * WORD, check_of(bytes, CHECK));
    return write_at(lock, 0, bytes, sizeof bytes);
}

int boddurci_put_epoch(int redo, uint64_t epoch)
{
    uint8_t bytes[2 * WORD];
    memcpy(bytes, EPOCH_SIGNATURE, WORD);
    put_word(bytes + WORD, epoch);
    return write_at(redo, NOTE_AT, bytes, sizeof bytes);
}

int boddurci_put_failed(int lock, uint64_t epoch)
{
    uint8_t bytes[WORD];
    put_word(bytes, epoch);
    return write_at(lock, FAILED_AT, bytes, sizeof bytes);
}

int boddurci_put_flushed(int lock, uint64_t epoch, uint64_t end)
{
    uint8_t bytes[FLUSHED_WORDS * WORD];
    put_word(bytes + OF_EPOCH * WORD, epoch);
    put_word(bytes + FLUSHED * WORD, end);
    put_word(bytes + FLUSHED_CHECK * WORD, check_of(bytes, FLUSHED_CHECK));
    return write_at(lock, FLUSHED_AT, bytes, sizeof bytes);
}

int boddurci_is_log_shared(int redo)
{
    uint8_t is_shared = 0;
    return boddurci_read_at(redo, SHARED_AT, &is_shared, 1) == 0 && is_shared == 1;
}

int boddurci_clear_epoch(int redo)
{
    static const uint8_t none[OLD_NOTES];
    uint8_t header[LOOKED];
    if (boddurci_read_at(redo, 0, header, sizeof header) != 0)
        return -1;
    return is_noted(header, 1) ? write_at(redo, NOTE_AT, none, sizeof none) : 0;
}

int boddurci_unmarked_header(int redo, uint8_t header[BODDURCI_HEADER_USED], size_t *length)
{
    if (boddurci_read_at(redo, 0, header, BODDURCI_HEADER_USED) != 0)
        return -1;
    *length = is_noted(header, 1) ? BODDURCI_HEADER_USED : 1;
    header[0] = 0;
    memset(header + NOTE_AT, 0, OLD_NOTES);
    return 0;
}

void boddurci_clear_epoch_in(struct boddurci_bytes *redo)
{
    if (redo->length >= HEADER && is_noted(redo->at, 1))
        memset(redo->at + NOTE_AT, 0, OLD_NOTES);
}
