/* Notes the state of the data files of a base when the base reads or writes them, and compares the present files with the notes.
 * include/boddurci_files.h says which changes made by other programs a save can notice in this way. */
#define _GNU_SOURCE
#include "boddurci_saves.h"
#include <fcntl.h>
#include <string.h>
#include <sys/stat.h>
#include <sys/vfs.h>

/* ---- the clock */

#ifdef CLOCK_REALTIME_COARSE
enum { TICKING = CLOCK_REALTIME_COARSE };
#else
enum { TICKING = CLOCK_REALTIME };
#endif

static struct timespec clock_of(clockid_t clock)
{
    struct timespec now = {0, 0};
    clock_gettime(clock, &now);
    return now;
}

struct timespec boddurci_tick(void)
{
    return clock_of(TICKING);
}

int boddurci_is_same_time(struct timespec one, struct timespec other)
{
    return one.tv_sec == other.tv_sec && one.tv_nsec == other.tv_nsec;
}

/* Returns whether two times are less than 20 milliseconds apart. */
static int is_near(struct timespec one, struct timespec other)
{
    double apart = (double)(one.tv_sec - other.tv_sec) + 1e-9 * (double)(one.tv_nsec - other.tv_nsec);
    return apart > -0.02 && apart < 0.02;
}

int boddurci_is_local(int opened)
{
    /* ext2 to ext4, XFS, Btrfs, tmpfs, F2FS, overlayfs, ZFS, Bcachefs */
    static const uint32_t kinds[] = {0xef53, 0x58465342, 0x9123683e, 0x01021994, 0xf2f52010, 0x794c7630, 0x2fc12fc1, 0xca451a4e};
    struct statfs system;
    if (fstatfs(opened, &system) != 0)
        return 0;
    for (size_t i = 0; i < sizeof kinds / sizeof *kinds; i++)
        if ((uint32_t)system.f_type == kinds[i])
            return 1;
    return 0;
}

/* ---- reading the state of the files */

/* Reads the state of a data file: of the open file if there is one and `is_held` is 1, otherwise of the file under the name. If the look is
 * quick, copies the noted times. */
static struct boddurci_note look_at(const struct boddurci_notes *notes, const struct boddurci_disk *disk, enum boddurci_file file, int is_held)
{
    struct stat is;
    struct boddurci_note note;
    int held = is_held ? disk->files[file] : -1, folder = held >= 0 ? held : disk->place->folder, how = held >= 0 ? AT_EMPTY_PATH : 0;
    const char *name = held >= 0 ? "" : disk->place->names[file];
    memset(&note, 0, sizeof note);
    if ((notes->is_quick ? boddurci_look(folder, name, how, &is) : fstatat(folder, name, &is, how)) != 0)
        return note;
    note.is_there = 1;
    note.device = is.st_dev;
    note.number = is.st_ino;
    note.length = is.st_size;
    note.written = notes->is_quick ? notes->files[file].written : is.st_mtim;
    note.changed = notes->is_quick ? notes->files[file].changed : is.st_ctim;
    return note;
}

/* Reads the state of both files. If `is_held` is 1, reads that of the open files, which takes less time. */
static void look_at_both(const struct boddurci_notes *notes, const struct boddurci_disk *disk, int is_held, struct boddurci_note found[2])
{
    struct boddurci_note both[2];
    for (enum boddurci_file file = BODDURCI_PAGES; file <= BODDURCI_DIRECTORY; file++)
        both[file] = look_at(notes, disk, file, is_held);
    memcpy(found, both, sizeof both);
}

/* ---- changes */

static const struct timespec never = {0, 0};

/* Returns whether a time may be the base's own: it is the noted one, or not later than `latest`, the time of the last write of the base. */
static int is_our_time(struct timespec noted, struct timespec is, struct timespec latest)
{
    return boddurci_is_same_time(noted, is) || is.tv_sec < latest.tv_sec || (is.tv_sec == latest.tv_sec && is.tv_nsec <= latest.tv_nsec);
}

static enum boddurci_change change_of(const struct boddurci_note *noted, const struct boddurci_note *is, struct timespec latest, int is_local)
{
    if (!noted->is_there && !is->is_there)
        return BODDURCI_SAME;
    if (!noted->is_there)
        return is->length == 0 ? BODDURCI_TOUCHED : BODDURCI_OTHERS;
    if (!is->is_there || noted->device != is->device || noted->number != is->number || noted->length != is->length)
        return BODDURCI_OTHERS;
    if (!is_our_time(noted->written, is->written, latest))
        return is_local ? BODDURCI_WRITTEN : BODDURCI_TOUCHED;
    return is_our_time(noted->changed, is->changed, latest) ? BODDURCI_SAME : BODDURCI_TOUCHED;
}

/* Returns the greater of the two differences. Sets *which to the file that has it. */
static enum boddurci_change change_of_both(const struct boddurci_note noted[2], const struct boddurci_note is[2], struct timespec latest,
                                           int is_local, enum boddurci_file *which)
{
    enum boddurci_change pages = change_of(&noted[BODDURCI_PAGES], &is[BODDURCI_PAGES], latest, is_local);
    enum boddurci_change directory = change_of(&noted[BODDURCI_DIRECTORY], &is[BODDURCI_DIRECTORY], latest, is_local);
    *which = directory > pages ? BODDURCI_DIRECTORY : BODDURCI_PAGES;
    return directory > pages ? directory : pages;
}

/* ---- notes */

void boddurci_note_opened(struct boddurci_notes *notes, const struct boddurci_disk *disk)
{
    notes->is_quick = 0;
    look_at_both(notes, disk, 0, notes->files);
}

void boddurci_note_system(struct boddurci_notes *notes, const struct boddurci_place *place)
{
    notes->is_local = boddurci_is_local(place->folder);
    for (enum boddurci_file file = BODDURCI_PAGES; file <= BODDURCI_DIRECTORY; file++)
        if (place->seen[file].is_there)
            notes->is_local = notes->is_local && boddurci_is_local(place->seen[file].opened);
}

struct timespec boddurci_time_of_folder(const struct boddurci_place *place)
{
    struct stat found;
    return fstat(place->folder, &found) == 0 ? found.st_ctim : never;
}

/* Returns whether the name of a data file leads to this file without a link, which may lead into another folder. Returns 1 if the file is
 * missing. */
static int is_plain(const struct boddurci_place *place, enum boddurci_file file, const struct boddurci_note *found)
{
    struct stat is;
    if (!found->is_there)
        return 1;
    return boddurci_look(place->folder, place->names[file], AT_SYMLINK_NOFOLLOW, &is) == 0 && is.st_dev == found->device &&
           is.st_ino == found->number;
}

/* Two changes of names within one clock tick may give the folder the same time. So the folder's time is noted only if it is clearly older
 * than the tick of the look. */
void boddurci_note_names(struct boddurci_notes *notes, const struct boddurci_place *place, struct timespec folder,
                         const struct boddurci_note found[2])
{
    int has_times = !boddurci_is_same_time(folder, never) && !boddurci_is_same_time(notes->tick, never);
    int is_known = notes->has_our_clock && has_times && !is_near(folder, notes->tick);
    for (enum boddurci_file file = BODDURCI_PAGES; file <= BODDURCI_DIRECTORY; file++)
        is_known = is_known && is_plain(place, file, &found[file]);
    notes->folder = is_known ? folder : never;
    notes->named = notes->tick;
}

void boddurci_look_at_names(struct boddurci_place *place)
{
    struct boddurci_names *all = &place->all;
    all->are_same = 0;
    if (!place->is_local)
        return;
    all->folder = boddurci_time_of_folder(place);
    all->are_same = boddurci_is_same_time(boddurci_tick(), all->named) && boddurci_is_same_time(all->folder, all->then);
}

void boddurci_note_all_names(struct boddurci_place *place, const struct boddurci_note found[2])
{
    struct boddurci_names *all = &place->all;
    struct timespec tick = boddurci_tick();
    int is_second = boddurci_is_same_time(tick, all->looked);
    int is_known = is_second && place->is_local && !boddurci_is_same_time(all->folder, never) && !is_near(all->folder, tick);
    all->looked = tick;
    for (enum boddurci_file file = BODDURCI_PAGES; is_known && file <= BODDURCI_DIRECTORY; file++)
        is_known = is_plain(place, file, &found[file]);
    all->named = is_known ? tick : never;
    all->then = all->folder;
}

int boddurci_are_names_same(const struct boddurci_notes *notes, const struct boddurci_place *place)
{
    struct timespec tick = boddurci_tick();
    if (boddurci_is_same_time(notes->folder, never) || !boddurci_is_same_time(tick, notes->tick) || !boddurci_is_same_time(tick, notes->named))
        return 0;
    return boddurci_is_same_time(boddurci_time_of_folder(place), notes->folder);
}

enum boddurci_change boddurci_look_before(struct boddurci_notes *notes, const struct boddurci_disk *disk, int may_be_quick, int are_names_same,
                                          struct boddurci_note found[2], enum boddurci_file *which)
{
    struct timespec tick = boddurci_tick();
    notes->is_quick = may_be_quick && notes->has_our_clock && boddurci_is_same_time(tick, notes->tick);
    look_at_both(notes, disk, notes->is_quick && are_names_same, found);
    enum boddurci_change change = change_of_both(notes->files, found, notes->latest, notes->is_local, which);
    if (notes->is_quick && change == BODDURCI_SAME)
        return change;
    if (notes->is_quick) {
        notes->is_quick = 0;
        look_at_both(notes, disk, 0, found);
        change = change_of_both(notes->files, found, notes->latest, notes->is_local, which);
    }
    notes->tick = change == BODDURCI_SAME ? tick : never;
    if (change == BODDURCI_SAME)
        boddurci_note_found(notes, found);
    return change;
}

enum boddurci_change boddurci_look_again(const struct boddurci_notes *notes, const struct boddurci_disk *disk,
                                         const struct boddurci_note found[2], enum boddurci_file *which)
{
    struct boddurci_note again[2];
    *which = BODDURCI_PAGES;
    if (notes->is_quick)
        return BODDURCI_SAME;
    look_at_both(notes, disk, 1, again);
    return change_of_both(found, again, never, notes->is_local, which);
}

void boddurci_look_meanwhile(struct boddurci_notes *notes, const struct boddurci_disk *disk)
{
    enum boddurci_file which;
    struct boddurci_note now[2];
    if (disk->has_reserved || boddurci_is_same_time(boddurci_tick(), notes->tick))
        return;
    notes->is_quick = 0;
    look_at_both(notes, disk, 1, now);
    notes->is_overtaken = change_of_both(notes->files, now, notes->latest, notes->is_local, &which) >= BODDURCI_WRITTEN;
}

void boddurci_note_found(struct boddurci_notes *notes, const struct boddurci_note found[2])
{
    memcpy(notes->files, found, sizeof notes->files);
    notes->latest = never;
}

void boddurci_note_written(struct boddurci_notes *notes, const struct boddurci_disk *disk)
{
    struct timespec tick = boddurci_tick();
    notes->is_quick = notes->has_our_clock && boddurci_is_same_time(tick, notes->tick);
    look_at_both(notes, disk, 1, notes->files);
    notes->latest = notes->is_quick ? clock_of(CLOCK_REALTIME) : never;
    if (notes->is_quick)
        return;
    notes->tick = tick;
    notes->has_our_clock = notes->is_local && is_near(notes->files[BODDURCI_PAGES].written, tick);
}

/* Notes only the new lengths, since no other files can have the inodes of the open ones. Returns 0 if that is not enough: the notes lack
 * .pag, or they lack .dir and its new length is not 0. */
static int note_lengths(struct boddurci_notes *notes, const uint64_t lengths[2])
{
    int has_directory = notes->files[BODDURCI_DIRECTORY].is_there;
    if (!notes->files[BODDURCI_PAGES].is_there || (!has_directory && lengths[BODDURCI_DIRECTORY] != 0))
        return 0;
    notes->files[BODDURCI_PAGES].length = (off_t)lengths[BODDURCI_PAGES];
    if (has_directory)
        notes->files[BODDURCI_DIRECTORY].length = (off_t)lengths[BODDURCI_DIRECTORY];
    return 1;
}

void boddurci_note_saved(struct boddurci_notes *notes, const struct boddurci_disk *disk, const uint64_t lengths[2])
{
    if (notes->has_our_clock && boddurci_is_same_time(boddurci_tick(), notes->tick) && note_lengths(notes, lengths))
        notes->latest = clock_of(CLOCK_REALTIME);
    else
        boddurci_note_written(notes, disk);
}
