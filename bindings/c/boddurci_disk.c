/* Opens the three files of a base for writing, and makes the system calls on these files. boddurci_steps.c executes the steps of a save
 * with these functions. */
#define _GNU_SOURCE
#include "boddurci_saves.h"
#include <errno.h>
#include <fcntl.h>
#include <pthread.h>
#include <signal.h>
#include <sys/resource.h>
#include <sys/stat.h>
#include <time.h>
#include <unistd.h>

/* ---- SIGXFSZ, the signal for a file that is too long */

static int has_come(void)
{
    sigset_t pending;
    return sigpending(&pending) == 0 && sigismember(&pending, SIGXFSZ) == 1;
}

/* Returns the greatest length of a file that this process may write (RLIMIT_FSIZE). */
static uint64_t most_bytes(void)
{
    struct rlimit most;
    return getrlimit(RLIMIT_FSIZE, &most) == 0 && most.rlim_cur != RLIM_INFINITY ? most.rlim_cur : UINT64_MAX;
}

void boddurci_hold_signal(struct boddurci_disk *disk)
{
    sigset_t only;
    disk->most = most_bytes();
    disk->is_too_long = disk->is_signal_held = 0;
    if (disk->most == UINT64_MAX)
        return;
    sigemptyset(&only);
    sigaddset(&only, SIGXFSZ);
    disk->is_signal_held = pthread_sigmask(SIG_BLOCK, &only, &disk->mask) == 0;
    disk->was_signalled = disk->is_signal_held && sigismember(&disk->mask, SIGXFSZ) == 1 && has_come();
}

void boddurci_give_signal(struct boddurci_disk *disk)
{
    static const struct timespec now = {0, 0};
    sigset_t only;
    int system = errno;
    if (!disk->is_signal_held)
        return;
    sigemptyset(&only);
    sigaddset(&only, SIGXFSZ);
    if (disk->is_too_long && !disk->was_signalled && has_come())
        (void)!sigtimedwait(&only, NULL, &now);
    pthread_sigmask(SIG_SETMASK, &disk->mask, NULL);
    disk->is_signal_held = 0;
    errno = system;
}

/* ---- opening */

void boddurci_disk_of(struct boddurci_disk *disk, struct boddurci_place *place)
{
    disk->place = place;
    for (enum boddurci_file file = BODDURCI_PAGES; file <= BODDURCI_REDO; file++)
        disk->files[file] = -1;
    disk->last = BODDURCI_PAGES;
    disk->is_folder_synced = 0;
    disk->is_signal_held = 0;
    disk->is_too_long = 0;
    disk->has_reserved = 0;
    disk->keeps_room = 0;
    disk->most = UINT64_MAX;
    disk->redo.is_known = disk->has_made_redo = 0;
}

void boddurci_disk_drop(struct boddurci_disk *disk, enum boddurci_file file)
{
    if (disk->files[file] >= 0)
        close(disk->files[file]);
    disk->files[file] = -1;
    disk->is_folder_synced = 0;
    if (file == BODDURCI_REDO)
        disk->redo.is_known = disk->has_made_redo = 0;
}

struct boddurci_inode boddurci_disk_redo(struct boddurci_disk *disk)
{
    if (!disk->redo.is_known && disk->files[BODDURCI_REDO] >= 0)
        disk->redo = boddurci_inode_of(disk->files[BODDURCI_REDO]);
    return disk->redo;
}

void boddurci_disk_close(struct boddurci_disk *disk)
{
    for (enum boddurci_file file = BODDURCI_PAGES; file <= BODDURCI_REDO; file++)
        boddurci_disk_drop(disk, file);
}

/* Returns the permissions for a new file, before the umask. A redo file contains pairs, so only its owner may read it until it gets the
 * permissions of .pag. If .pag does not exist yet, the redo file may be read by all users who will be able to read the new .pag. */
static mode_t mode_of(const struct boddurci_disk *disk, enum boddurci_file file)
{
    if (file == BODDURCI_REDO)
        return disk->files[BODDURCI_PAGES] < 0 ? 0644 : 0600;
    return file == BODDURCI_PAGES ? 0666 : boddurci_mode_of_pages(disk->place, 0666);
}

/* Makes a file. After making .pag, gives a redo file that this process has made the owner, the group and the permissions of .pag. */
static int make(struct boddurci_disk *disk, enum boddurci_file file)
{
    int *opened = &disk->files[file];
    mode_t mode = mode_of(disk, file);
    disk->is_folder_synced = 0;
    *opened = boddurci_make(disk->place, file, mode);
    if (*opened < 0 || (file != BODDURCI_REDO && boddurci_see(disk->place, file, *opened) != 0))
        return -1;
    if (file == BODDURCI_REDO)
        disk->has_made_redo = 1;
    if (file != BODDURCI_PAGES)
        return boddurci_be_like_pages(disk->place, file, *opened);
    return disk->has_made_redo ? boddurci_be_like_pages(disk->place, BODDURCI_REDO, disk->files[BODDURCI_REDO]) : 0;
}

/* Opens an existing data file. boddurci_log.c opens the redo file. */
static int open_found(struct boddurci_disk *disk, enum boddurci_file file)
{
    if (disk->files[file] < 0 && file != BODDURCI_REDO)
        disk->files[file] = boddurci_open_data(disk->place, file, O_RDWR);
    else if (disk->files[file] < 0)
        errno = ENOENT;
    return disk->files[file] < 0 ? -1 : 0;
}

/* Opens a file, or makes it if it is missing. */
static int open_to_write(struct boddurci_disk *disk, enum boddurci_file file)
{
    disk->last = file;
    if (open_found(disk, file) == 0)
        return 0;
    return errno == ENOENT ? make(disk, file) : -1;
}

/* ---- calls on one file */

/* Records whether a failed call may have raised the signal: the system raises it only if errno is EFBIG. */
static int failed(struct boddurci_disk *disk)
{
    disk->is_too_long = disk->is_too_long || errno == EFBIG;
    return -1;
}

int boddurci_disk_write(struct boddurci_disk *disk, enum boddurci_file file, uint64_t at, const uint8_t *bytes, size_t size)
{
    if (open_to_write(disk, file) != 0)
        return -1;
    for (size_t done = 0; done < size;) {
        ssize_t put = pwrite(disk->files[file], bytes + done, size - done, (off_t)(at + done));
        if (put < 0 && errno != EINTR)
            return failed(disk);
        done += put < 0 ? 0 : (size_t)put;
    }
    return 0;
}

/* Writes zeros in small pieces. After one long write the page cache may use large folios, which make each later short write, and its sync,
 * slower. */
int boddurci_disk_zero(struct boddurci_disk *disk, enum boddurci_file file, uint64_t at, uint64_t size)
{
    static uint8_t zeros[16384];
    for (uint64_t done = 0, next; done < size; done += next) {
        next = size - done < sizeof zeros ? size - done : sizeof zeros;
        if (boddurci_disk_write(disk, file, at + done, zeros, (size_t)next) != 0)
            return -1;
    }
    return 0;
}

int boddurci_disk_find(struct boddurci_disk *disk, enum boddurci_file file)
{
    disk->last = file;
    return open_found(disk, file) == 0 || errno == ENOENT ? 0 : -1;
}

int boddurci_disk_length(struct boddurci_disk *disk, enum boddurci_file file, uint64_t *length)
{
    struct stat found;
    *length = 0;
    if (boddurci_disk_find(disk, file) != 0)
        return -1;
    if (disk->files[file] < 0)
        return 0;
    if (boddurci_look_at(disk->files[file], &found) != 0)
        return -1;
    *length = (uint64_t)found.st_size;
    return 0;
}

static int cut(struct boddurci_disk *disk, enum boddurci_file file, uint64_t length)
{
    int status;
    do
        status = ftruncate(disk->files[file], (off_t)length);
    while (status != 0 && errno == EINTR);
    return status != 0 ? failed(disk) : 0;
}

int boddurci_disk_resize(struct boddurci_disk *disk, enum boddurci_file file, uint64_t length)
{
    uint64_t is;
    if (open_to_write(disk, file) != 0 || boddurci_disk_length(disk, file, &is) != 0)
        return -1;
    return is == length ? 0 : cut(disk, file, length);
}

int boddurci_disk_sync(struct boddurci_disk *disk, enum boddurci_file file)
{
    disk->last = file;
    if (open_found(disk, file) != 0 && errno != ENOENT)
        return -1;
    if (disk->files[file] >= 0 && boddurci_keep_opened(disk->files[file]) != 0)
        return -1;
    if (!disk->is_folder_synced && boddurci_keep_folder(disk->place) != 0)
        return -1;
    disk->is_folder_synced = 1;
    return 0;
}

int boddurci_disk_remove_redo(struct boddurci_disk *disk)
{
    disk->last = BODDURCI_REDO;
    boddurci_disk_drop(disk, BODDURCI_REDO);
    return unlinkat(disk->place->folder, disk->place->names[BODDURCI_REDO], 0) == 0 || errno == ENOENT ? 0 : -1;
}

/* ---- blocks */

int boddurci_disk_reserve(struct boddurci_disk *disk, enum boddurci_file file, uint64_t at, uint64_t size)
{
    int status = 1;
    disk->last = file;
#ifdef FALLOC_FL_KEEP_SIZE
    do
        status = fallocate(disk->files[file], FALLOC_FL_KEEP_SIZE, (off_t)at, (off_t)size);
    while (status != 0 && errno == EINTR);
    if (status != 0)
        failed(disk);
    if (status != 0)
        status = errno == ENOSPC || errno == EDQUOT || errno == EFBIG || errno == EIO ? -1 : 1;
#else
    (void)at, (void)size;
#endif
    return status;
}

int boddurci_disk_trim(struct boddurci_disk *disk, enum boddurci_file file, uint64_t length)
{
    disk->last = file;
    return cut(disk, file, length);
}
