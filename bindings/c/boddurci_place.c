/* Opens the folder of a database and the files in it. A redo file or a lock is refused if a user who may not write .pag could have made
 * it; docs/DECISIONS.md says why under "Calls from C". */
#define _GNU_SOURCE
#include "boddurci_saves.h"
#include <errno.h>
#include <fcntl.h>
#include <stdio.h>
#include <stdlib.h>
#include <string.h>
#include <sys/stat.h>
#include <sys/sysmacros.h>
#include <unistd.h>

/* With O_PATH, permission to search the folder is enough. */
#ifdef O_PATH
enum { OPEN_FOLDER = O_PATH | O_DIRECTORY };
#else
enum { OPEN_FOLDER = O_RDONLY | O_DIRECTORY };
#endif

/* Returns a copy of a descriptor above those of the standard streams. */
static int copy_above(int opened)
{
    enum { FIRST = 3 };
    return fcntl(opened, F_DUPFD_CLOEXEC, FIRST);
}

/* If standard streams of the process are closed, the system gives their descriptors to the next files. A line on standard error would then
 * be written into such a file. */
int boddurci_open_at(int folder, const char *name, int how, mode_t mode)
{
    int opened = openat(folder, name, how | O_NOCTTY | O_CLOEXEC, mode);
    if (opened < 0 || opened > STDERR_FILENO)
        return opened;
    int above = copy_above(opened), system = errno;
    close(opened);
    errno = system;
    return above;
}

static char *joined(const char *name, const char *ending)
{
    char *all = malloc(strlen(name) + strlen(ending) + 1);
    if (all != NULL)
        strcat(strcpy(all, name), ending);
    return all;
}

/* Opens the folder of a base. */
static int open_folder(const char *base)
{
    const char *end = strrchr(base, '/');
    if (end == NULL)
        return boddurci_open_at(AT_FDCWD, ".", OPEN_FOLDER, 0);
    char *folder = strdup(base);
    if (folder == NULL)
        return -1;
    folder[end == base ? 1 : end - base] = 0;
    int opened = boddurci_open_at(AT_FDCWD, folder, OPEN_FOLDER, 0), system = errno;
    free(folder);
    errno = system;
    return opened;
}

void boddurci_no_place(struct boddurci_place *place)
{
    static const struct boddurci_place none = {.folder = -1};
    *place = none;
    for (enum boddurci_file file = BODDURCI_PAGES; file < BODDURCI_FILES; file++)
        place->opened[file] = -1;
}

uint32_t boddurci_place_of(struct boddurci_place *place, const char *base, boddurci_fault *fault)
{
    static const char *const endings[BODDURCI_FILES] = {".pag", ".dir", ".redo", ".lock", ".writer"};
    const char *end = strrchr(base, '/');
    boddurci_no_place(place);
    for (enum boddurci_file file = BODDURCI_PAGES; file < BODDURCI_FILES; file++) {
        place->names[file] = joined(end != NULL ? end + 1 : base, endings[file]);
        if (place->names[file] == NULL)
            return boddurci_no_memory(fault);
    }
    place->folder = open_folder(base);
    return place->folder >= 0 ? BODDURCI_DONE : boddurci_fail_by_system(fault, "the folder of the base cannot be opened");
}

uint32_t boddurci_place_like(struct boddurci_place *place, const struct boddurci_place *like, boddurci_fault *fault)
{
    boddurci_no_place(place);
    for (enum boddurci_file file = BODDURCI_PAGES; file < BODDURCI_FILES; file++) {
        place->names[file] = strdup(like->names[file]);
        if (place->names[file] == NULL)
            return boddurci_no_memory(fault);
    }
    place->is_local = like->is_local;
    place->folder = copy_above(like->folder);
    return place->folder >= 0 ? BODDURCI_DONE : boddurci_fail_by_system(fault, "the folder of the base cannot be opened");
}

void boddurci_place_close(struct boddurci_place *place)
{
    boddurci_see_none(place);
    boddurci_forget_place(place);
    for (enum boddurci_file file = BODDURCI_PAGES; file < BODDURCI_FILES; file++)
        free(place->names[file]);
    if (place->folder >= 0)
        close(place->folder);
}

/* Closes a file that is not accepted, and sets errno to `system`. */
static int leave(int opened, int system)
{
    close(opened);
    errno = system;
    return -1;
}

/* ---- names */

/* Returns whether the last part of a path can be the name of a base. A path such as users/ cannot: its files would be users/.dir and
 * users/.pag. */
static int is_name(const char *name)
{
    const char *end = strrchr(name, '/'), *last = end != NULL ? end + 1 : name;
    return strcmp(last, "") != 0 && strcmp(last, ".") != 0 && strcmp(last, "..") != 0;
}

/* If the name of a file is a symbolic link to a file of another base with this ending, sets *lead to the name of that base. Otherwise sets
 * *lead to NULL. The caller frees *lead. */
static int lead_of(const char *base, const char *ending, char **lead)
{
    struct stat found;
    size_t length = strlen(base), end = strlen(ending);
    char *name = malloc(length + end + 1);
    *lead = NULL;
    if (name == NULL)
        return -1;
    int is_link = lstat(strcat(strcpy(name, base), ending), &found) == 0 && S_ISLNK(found.st_mode);
    char *real = is_link ? realpath(name, NULL) : NULL;
    int system = errno;
    free(name);
    errno = system;
    if (real == NULL)
        return is_link ? -1 : 0;
    length = strlen(real);
    if (length < end || strcmp(real + length - end, ending) != 0) {
        free(real);
        return 0;
    }
    real[length - end] = 0;
    *lead = real;
    return 0;
}

uint32_t boddurci_resolve(const char *name, char **led, boddurci_fault *fault)
{
    char *pages = NULL, *directory = NULL;
    *led = NULL;
    if (!is_name(name))
        return boddurci_fail(fault, BODDURCI_BAD_NAME, 0, "the name is empty, . or .., or ends in one of these after a /");
    if (lead_of(name, ".pag", &pages) != 0 || lead_of(name, ".dir", &directory) != 0) {
        uint32_t status = boddurci_fail_by_system(fault, "a link cannot be followed");
        free(pages);
        return status;
    }
    int are_same = pages != NULL && directory != NULL ? strcmp(pages, directory) == 0 : pages == directory;
    free(directory);
    if (are_same) {
        *led = pages;
        return BODDURCI_DONE;
    }
    free(pages);
    return boddurci_fail(fault, BODDURCI_FILE_FAILED, 0, "BASE.pag and BASE.dir are links to two bases");
}

/* ---- the data files */

static void see_nothing(struct boddurci_seen *seen)
{
    if (seen->is_there)
        close(seen->opened);
    seen->is_there = 0;
}

void boddurci_see_none(struct boddurci_place *place)
{
    see_nothing(&place->seen[BODDURCI_PAGES]);
    see_nothing(&place->seen[BODDURCI_DIRECTORY]);
}

int boddurci_see(struct boddurci_place *place, enum boddurci_file file, int opened)
{
    struct stat found;
    struct boddurci_seen *seen = &place->seen[file];
    if (boddurci_look_at(opened, &found) != 0)
        return -1;
    if (seen->is_there && (seen->device != found.st_dev || seen->number != found.st_ino)) {
        errno = ESTALE;
        return -1;
    }
    if (!S_ISREG(found.st_mode)) {
        errno = S_ISDIR(found.st_mode) ? EISDIR : EINVAL;
        return -1;
    }
    if (!seen->is_there) {
        seen->opened = copy_above(opened);
        if (seen->opened < 0)
            return -1;
    }
    seen->is_there = 1;
    seen->device = found.st_dev;
    seen->number = found.st_ino;
    return 0;
}

int boddurci_open_data(struct boddurci_place *place, enum boddurci_file file, int how)
{
    int opened = boddurci_open_at(place->folder, place->names[file], how | O_NONBLOCK, 0);
    if (opened < 0) {
        errno = errno == ENOENT && place->seen[file].is_there ? ESTALE : errno;
        return -1;
    }
    return boddurci_see(place, file, opened) == 0 ? opened : leave(opened, errno);
}

/* ---- the redo file and the locks */

static const char *kind_of(mode_t mode)
{
    if (S_ISREG(mode))
        return NULL;
    if (S_ISLNK(mode))
        return "is a symbolic link";
    if (S_ISDIR(mode))
        return "is a folder";
    return S_ISFIFO(mode) ? "is a FIFO" : "is a device or a socket";
}

static uint32_t not_taken(boddurci_fault *fault, const char *name, const char *why)
{
    char shown[100];
    boddurci_show_name(shown, sizeof shown, name);
    boddurci_fail(fault, BODDURCI_UNSAFE, 0, "");
    snprintf(fault->text, sizeof fault->text, "%s %s, and is not taken", shown, why);
    return fault->status;
}

static int is_lock(enum boddurci_file file)
{
    return file >= BODDURCI_LOCK;
}

/* Returns whether every user who may write a file may write .pag too. `pages` is NULL if .pag is missing. In that case all users may be
 * able to write a lock, since a lock is empty. */
static int is_writing_safe(enum boddurci_file file, const struct stat *found, const struct stat *pages)
{
    if (pages == NULL)
        return is_lock(file) || (found->st_mode & (S_IWGRP | S_IWOTH)) == 0;
    if (pages->st_mode & S_IWOTH)
        return 1;
    int is_group_safe = (pages->st_mode & S_IWGRP) != 0 && pages->st_gid == found->st_gid;
    return (found->st_mode & S_IWOTH) == 0 && ((found->st_mode & S_IWGRP) == 0 || is_group_safe);
}

/* Returns whether the owner of a file is trusted: this user, root, or the owner of .pag. A lock may belong to any user who may write .pag,
 * since that user cannot give it to the owner of .pag. */
static int is_owner_safe(enum boddurci_file file, const struct stat *found, const struct stat *pages)
{
    if (found->st_uid == geteuid() || found->st_uid == 0 || (pages != NULL && found->st_uid == pages->st_uid))
        return 1;
    if (!is_lock(file) || pages == NULL)
        return 0;
    return (pages->st_mode & S_IWOTH) != 0 || ((pages->st_mode & S_IWGRP) != 0 && found->st_gid == pages->st_gid);
}

/* Checks that a redo file or a lock is acceptable. Accepts a file that has lost its name meanwhile. */
static uint32_t look(const struct boddurci_place *place, enum boddurci_file file, const struct stat *found, boddurci_fault *fault)
{
    struct stat pages;
    char why[80];
    const char *kind = kind_of(found->st_mode), *name = place->names[file];
    if (kind != NULL)
        return not_taken(fault, name, kind);
    if (found->st_nlink > 1)
        return not_taken(fault, name, "has another name beside this one");
    int is_there = boddurci_look(place->folder, place->names[BODDURCI_PAGES], 0, &pages) == 0;
    if (!is_there && errno != ENOENT)
        return boddurci_fail_by_system(fault, "BASE.pag cannot be looked at");
    const struct stat *beside = is_there ? &pages : NULL;
    if (is_owner_safe(file, found, beside) && is_writing_safe(file, found, beside))
        return BODDURCI_DONE;
    snprintf(why, sizeof why, "is of user %lu with mode %04o", (unsigned long)found->st_uid, (unsigned)found->st_mode & 07777);
    return not_taken(fault, name, why);
}

static uint32_t cannot_be_opened(enum boddurci_file file, boddurci_fault *fault)
{
    const char *lock = file == BODDURCI_LOCK ? "BASE.lock cannot be opened" : "BASE.writer cannot be opened";
    return boddurci_fail_by_system(fault, file == BODDURCI_REDO ? "BASE.redo cannot be opened" : lock);
}

/* Opens the file. A lock is opened for reading if it cannot be opened as requested. */
static int open_found(const struct boddurci_place *place, enum boddurci_file file, int how)
{
    int more = O_NOFOLLOW | O_NONBLOCK, opened = boddurci_open_at(place->folder, place->names[file], how | more, 0);
    if (opened < 0 && is_lock(file) && errno != ENOENT)
        opened = boddurci_open_at(place->folder, place->names[file], O_RDONLY | more, 0);
    return opened;
}

uint32_t boddurci_open_beside(const struct boddurci_place *place, enum boddurci_file file, int how, int *opened, boddurci_fault *fault)
{
    struct stat found;
    *opened = -1;
    if (boddurci_look(place->folder, place->names[file], AT_SYMLINK_NOFOLLOW, &found) != 0)
        return errno == ENOENT ? BODDURCI_DONE : cannot_be_opened(file, fault);
    uint32_t status = look(place, file, &found, fault);
    if (status != BODDURCI_DONE)
        return status;
    int there = open_found(place, file, how);
    if (there < 0)
        return errno == ENOENT ? BODDURCI_DONE : cannot_be_opened(file, fault);
    /* The name may lead to another file by now. */
    status = boddurci_look_at(there, &found) == 0 ? look(place, file, &found, fault) : cannot_be_opened(file, fault);
    if (status == BODDURCI_DONE)
        *opened = there;
    else
        close(there);
    return status;
}

int boddurci_make(const struct boddurci_place *place, enum boddurci_file file, mode_t mode)
{
    return boddurci_open_at(place->folder, place->names[file], O_RDWR | O_CREAT | O_EXCL | O_NOFOLLOW, mode);
}

mode_t boddurci_mode_of_pages(const struct boddurci_place *place, mode_t otherwise)
{
    struct stat pages;
    return boddurci_look(place->folder, place->names[BODDURCI_PAGES], 0, &pages) == 0 ? pages.st_mode & 0666 : otherwise;
}

/* Gives a file the owner of .pag and, independently, the group of .pag. If the system forbids one of these changes, leaves it out. */
static int give(int opened, const struct stat *pages, struct stat *own)
{
    if (fstat(opened, own) != 0)
        return -1;
    if (own->st_uid != pages->st_uid && fchown(opened, pages->st_uid, (gid_t)-1) != 0)
        errno = 0;
    if (own->st_gid != pages->st_gid && fchown(opened, (uid_t)-1, pages->st_gid) != 0)
        errno = 0;
    return fstat(opened, own);
}

int boddurci_be_like_pages(const struct boddurci_place *place, enum boddurci_file file, int opened)
{
    struct stat own, pages;
    if (boddurci_look(place->folder, place->names[BODDURCI_PAGES], 0, &pages) != 0)
        return errno == ENOENT ? 0 : -1;
    if (give(opened, &pages, &own) != 0)
        return -1;
    mode_t mode = pages.st_mode & 0666;
    int has_owner = own.st_uid == pages.st_uid, has_group = own.st_gid == pages.st_gid;
    if (!has_group)
        mode &= ~(mode_t)S_IRWXG;
    if (is_lock(file) && !(has_owner && has_group))
        mode |= S_IROTH;
    return fchmod(opened, mode);
}

int boddurci_is_like_pages(const struct boddurci_place *place, int opened)
{
    struct stat own, pages;
    if (boddurci_look(place->folder, place->names[BODDURCI_PAGES], 0, &pages) != 0 || boddurci_look_at(opened, &own) != 0)
        return 0;
    return own.st_uid == pages.st_uid && own.st_gid == pages.st_gid && (own.st_mode & 07777) == (pages.st_mode & 0666);
}

int boddurci_look(int folder, const char *name, int how, struct stat *found)
{
#ifdef STATX_INO
    struct statx is;
    if (statx(folder, name, how, STATX_INO | STATX_SIZE | STATX_TYPE | STATX_MODE | STATX_NLINK | STATX_UID | STATX_GID, &is) == 0) {
        memset(found, 0, sizeof *found);
        found->st_dev = makedev(is.stx_dev_major, is.stx_dev_minor);
        found->st_ino = is.stx_ino;
        found->st_size = (off_t)is.stx_size;
        found->st_mode = is.stx_mode;
        found->st_nlink = is.stx_nlink;
        found->st_uid = is.stx_uid;
        found->st_gid = is.stx_gid;
        return 0;
    }
    if (errno != ENOSYS && errno != EPERM)
        return -1;
#endif
    return fstatat(folder, name, found, how);
}

int boddurci_look_at(int opened, struct stat *found)
{
    return boddurci_look(opened, "", AT_EMPTY_PATH, found);
}

struct boddurci_inode boddurci_inode_of(int opened)
{
    struct stat found;
    struct boddurci_inode inode = {0, 0, 0};
    if (boddurci_look_at(opened, &found) == 0)
        inode = (struct boddurci_inode){1, found.st_dev, found.st_ino};
    return inode;
}

int boddurci_leads_to(const struct boddurci_place *place, enum boddurci_file file, struct boddurci_inode inode)
{
    struct stat named;
    return inode.is_known && boddurci_look(place->folder, place->names[file], AT_SYMLINK_NOFOLLOW, &named) == 0 &&
           inode.device == named.st_dev && inode.number == named.st_ino;
}

int boddurci_is_named(const struct boddurci_place *place, enum boddurci_file file, int opened)
{
    return boddurci_leads_to(place, file, boddurci_inode_of(opened));
}

/* ---- syncing */

static int sync_wholly(int opened, int (*sync)(int))
{
    int status;
    do
        status = sync(opened);
    while (status != 0 && errno == EINTR);
    return status;
}

int boddurci_keep_opened(int opened)
{
    return sync_wholly(opened, fdatasync);
}

int boddurci_keep_folder(const struct boddurci_place *place)
{
    int opened = boddurci_open_at(place->folder, ".", O_RDONLY | O_DIRECTORY, 0);
    if (opened < 0)
        return -1;
    int status = sync_wholly(opened, fsync), system = errno;
    close(opened);
    errno = system;
    return status;
}
