/* A library that is loaded before the C library. It interrupts a run at its Nth call that writes, syncs, truncates, removes, links or
 * renames a file, or allocates its blocks. Or it logs these calls.
 *
 *     CUT_CALL     N; without it no call is interrupted
 *     CUT_FAULT    the errno with which the call fails; 0 is a kill
 *     CUT_TOLD     a file that is made once a call has failed
 *     CUT_LINES    counts also output to a descriptor 1 that is not a file, except writes of no bytes
 *     CUT_LOG      a file for a log of completed calls: pwrite, ftruncate, unlink, syncs and failed syncs, one per line, with bytes in hex;
 *                  with CUT_LINES also output */
#define _GNU_SOURCE
#include <dlfcn.h>
#include <errno.h>
#include <fcntl.h>
#include <signal.h>
#include <stdarg.h>
#include <stdatomic.h>
#include <stdio.h>
#include <stdlib.h>
#include <sys/stat.h>
#include <sys/uio.h>
#include <unistd.h>

static atomic_long calls;
static long chosen;
static int fault;
static int has_lines;
static const char *log_name;

static const char *told(const char *name, const char *otherwise)
{
    const char *value = getenv(name);
    return value != NULL ? value : otherwise;
}

__attribute__((constructor)) static void begin(void)
{
    chosen = atol(told("CUT_CALL", "0"));
    fault = atoi(told("CUT_FAULT", "0"));
    has_lines = getenv("CUT_LINES") != NULL;
    log_name = getenv("CUT_LOG");
    calls = 0;
}

static int is_file(int fd)
{
    struct stat found;
    return fstat(fd, &found) == 0 && (S_ISREG(found.st_mode) || S_ISDIR(found.st_mode));
}

static int is_line(int fd, size_t count)
{
    return has_lines && fd == 1 && count > 0;
}

static int is_next_cut(void)
{
    return chosen != 0 && atomic_load(&calls) + 1 == chosen;
}

/* Returns whether this call must fail. If the run must be killed at this call, kills it. */
static int is_cut(void)
{
    if (!chosen || atomic_fetch_add(&calls, 1) + 1 != chosen)
        return 0;
    if (!fault)
        kill(getpid(), SIGKILL);
    close(open(told("CUT_TOLD", "/dev/null"), O_CREAT | O_WRONLY, 0600));
    errno = fault;
    return 1;
}

#define REAL(name) ((__typeof__(name) *)dlsym(RTLD_NEXT, #name))

/* ---- the log */

static void note(const char *call, const char *name, long long number, const unsigned char *bytes, size_t count)
{
    FILE *file = log_name != NULL ? fopen(log_name, "a") : NULL;
    if (file == NULL)
        return;
    fprintf(file, "%s %s %lld ", call, name, number);
    for (size_t i = 0; i < count; i++)
        fprintf(file, "%02x", bytes[i]);
    fputs("\n", file);
    fclose(file);
}

static void note_opened(const char *call, int fd, long long number, const void *bytes, size_t count)
{
    char link[64], name[4096];
    if (log_name == NULL)
        return;
    int system = errno;
    snprintf(link, sizeof link, "/proc/self/fd/%d", fd);
    ssize_t length = readlink(link, name, sizeof name - 1);
    name[length < 0 ? 0 : length] = 0;
    note(call, name, number, bytes, count);
    errno = system;
}

/* ---- the calls. An interrupted write has written half of its bytes. */

ssize_t write(int fd, const void *bytes, size_t count)
{
    if (log_name != NULL && is_line(fd, count))
        note("told", "-", 0, bytes, count);
    if (log_name != NULL || !(is_file(fd) || is_line(fd, count)))
        return REAL(write)(fd, bytes, count);
    if (is_next_cut() && count > 1)
        REAL(write)(fd, bytes, count / 2);
    return is_cut() ? -1 : REAL(write)(fd, bytes, count);
}

ssize_t pwrite(int fd, const void *bytes, size_t count, off_t at)
{
    if (is_file(fd) && is_next_cut() && count > 1)
        REAL(pwrite)(fd, bytes, count / 2, at);
    ssize_t put = is_file(fd) && is_cut() ? -1 : REAL(pwrite)(fd, bytes, count, at);
    if (put > 0)
        note_opened("pwrite", fd, at, bytes, (size_t)put);
    return put;
}

ssize_t pwrite64(int fd, const void *bytes, size_t count, off64_t at)
{
    return pwrite(fd, bytes, count, at);
}

ssize_t writev(int fd, const struct iovec *parts, int count)
{
    return is_file(fd) && is_cut() ? -1 : REAL(writev)(fd, parts, count);
}

int fsync(int fd)
{
    int status = is_cut() ? -1 : REAL(fsync)(fd);
    note_opened(status == 0 ? "sync" : "failed", fd, 0, NULL, 0);
    return status;
}

int fdatasync(int fd)
{
    int status = is_cut() ? -1 : REAL(fdatasync)(fd);
    note_opened(status == 0 ? "sync" : "failed", fd, 0, NULL, 0);
    return status;
}

int ftruncate(int fd, off_t length)
{
    int status = is_cut() ? -1 : REAL(ftruncate)(fd, length);
    note_opened("ftruncate", fd, length, NULL, 0);
    return status;
}

int ftruncate64(int fd, off64_t length)
{
    return ftruncate(fd, length);
}

int fallocate(int fd, int mode, off_t at, off_t length)
{
    return is_cut() ? -1 : REAL(fallocate)(fd, mode, at, length);
}

int unlink(const char *name)
{
    int status = is_cut() ? -1 : REAL(unlink)(name);
    if (status == 0)
        note("unlink", name, 0, NULL, 0);
    return status;
}

int unlinkat(int folder, const char *name, int how)
{
    int status = is_cut() ? -1 : REAL(unlinkat)(folder, name, how);
    if (status == 0)
        note("unlink", name, 0, NULL, 0);
    return status;
}

/* Links a file under a new name, which the log records. */
int linkat(int from, const char *old, int to, const char *name, int flags)
{
    int status = is_cut() ? -1 : REAL(linkat)(from, old, to, name, flags);
    note(status == 0 ? "link" : "failed", name, 0, NULL, 0);
    return status;
}

int link(const char *old, const char *name)
{
    return linkat(AT_FDCWD, old, AT_FDCWD, name, 0);
}

int rename(const char *from, const char *to)
{
    return is_cut() ? -1 : REAL(rename)(from, to);
}

int fchmod(int fd, mode_t mode)
{
    return is_cut() ? -1 : REAL(fchmod)(fd, mode);
}

int fchown(int fd, uid_t user, gid_t group)
{
    return is_cut() ? -1 : REAL(fchown)(fd, user, group);
}
