/* The process of a base. Gets the number of this process without a system call: each call on a base needs it, to test that this process opened
 * the base and not a parent. Lists the places with locks, so that a child can close them. */
#define _GNU_SOURCE
#include "boddurci_saves.h"
#include <sys/mman.h>
#include <sys/stat.h>
#include <unistd.h>

/* ---- the number of the process */

/* Points to the number, on a page that the system clears in a child. NULL if the system has no such pages. */
static pid_t *noted;
static pthread_once_t once = PTHREAD_ONCE_INIT;

/* Some emulators accept and ignore any advice of madvise, even an invalid one. So the page is used only if the system refuses an invalid
 * advice. */
static void make_page(void)
{
#ifdef MADV_WIPEONFORK
    enum { SIZE = 4096, NO_ADVICE = -1 };
    void *page = mmap(NULL, SIZE, PROT_READ | PROT_WRITE, MAP_PRIVATE | MAP_ANONYMOUS, -1, 0);
    if (page == MAP_FAILED)
        return;
    if (madvise(page, SIZE, NO_ADVICE) != 0 && madvise(page, SIZE, MADV_WIPEONFORK) == 0)
        noted = page;
    else
        munmap(page, SIZE);
#endif
}

pid_t boddurci_note_process(void)
{
    pid_t process = getpid();
    pthread_once(&once, make_page);
    if (noted != NULL)
        __atomic_store_n(noted, process, __ATOMIC_RELAXED);
    return process;
}

pid_t boddurci_this_process(void)
{
    pid_t process = noted != NULL ? __atomic_load_n(noted, __ATOMIC_RELAXED) : 0;
    return process != 0 ? process : getpid();
}

/* ---- places with locks */

/* All places with locks, except empty ones. The mutex protects the list, and the fields that say who holds the locks. A fork takes the mutex
 * first. */
static struct boddurci_place *places;
static unsigned long threads; /* the number of threads that have taken a lock so far */
static __thread unsigned long this_thread; /* this thread's number among them, from 1; the system reuses its own numbers */
static pthread_mutex_t places_mutex = PTHREAD_MUTEX_INITIALIZER;
static pthread_once_t places_once = PTHREAD_ONCE_INIT;

/* Threads that open or close lock files share this lock, and a fork takes it exclusively. So a child knows the descriptors of all lock files,
 * and no thread waits for another one whose file system does not answer. */
#ifdef PTHREAD_RWLOCK_WRITER_NONRECURSIVE_INITIALIZER_NP
#define FORKS PTHREAD_RWLOCK_WRITER_NONRECURSIVE_INITIALIZER_NP /* a waiting fork goes first */
#else
#define FORKS PTHREAD_RWLOCK_INITIALIZER
#endif
static pthread_rwlock_t forks = FORKS;

void boddurci_hold_forks(void)
{
    pthread_rwlock_rdlock(&forks);
}

void boddurci_give_forks(void)
{
    pthread_rwlock_unlock(&forks);
}

static void take_places(void)
{
    pthread_mutex_lock(&places_mutex);
}

static void give_places(void)
{
    pthread_mutex_unlock(&places_mutex);
}

static void close_lock(struct boddurci_place *place, enum boddurci_file lock)
{
    if (place->opened[lock] >= 0)
        close(place->opened[lock]);
    place->opened[lock] = -1;
    place->is_early[lock] = 0;
}

void boddurci_close_lock(struct boddurci_place *place, enum boddurci_file lock)
{
    boddurci_hold_forks();
    close_lock(place, lock);
    boddurci_give_forks();
}

static void before_fork(void)
{
    pthread_rwlock_wrlock(&forks);
    take_places();
}

static void after_fork(void)
{
    give_places();
    boddurci_give_forks();
}

/* Closes all lock files in a child. The child has the same open files as its parent, so it would keep the locks of a parent that was killed.
 * The C library knows the writer of the lock of forks by its thread, which the child does not have, so the child makes that lock again. */
static void leave_locks(void)
{
    for (struct boddurci_place *place = places; place != NULL; place = place->next) {
        close_lock(place, BODDURCI_WRITER);
        close_lock(place, BODDURCI_LOCK);
        place->holder = 0;
    }
    give_places();
    forks = (pthread_rwlock_t)FORKS;
}

static void guard_forks(void)
{
    pthread_atfork(before_fork, after_fork, leave_locks);
}

void boddurci_add_place(struct boddurci_place *place)
{
    pthread_once(&places_once, guard_forks);
    take_places();
    place->next = places;
    places = place;
    give_places();
}

void boddurci_forget_place(struct boddurci_place *place)
{
    take_places();
    for (struct boddurci_place **at = &places; *at != NULL; at = &(*at)->next)
        if (*at == place) {
            *at = place->next;
            break;
        }
    give_places();
}

void boddurci_note_held(struct boddurci_place *place)
{
    take_places();
    if (this_thread == 0)
        this_thread = ++threads;
    place->holder = this_thread;
    place->process = boddurci_this_process();
    place->keeps_files = 1;
    give_places();
}

void boddurci_forget_held(struct boddurci_place *place)
{
    take_places();
    place->holder = 0;
    give_places();
}

void boddurci_set_keeps_files(struct boddurci_place *place, int keeps)
{
    take_places();
    place->keeps_files = keeps;
    give_places();
}

/* Returns whether a place holds a lock for longer than a call. */
static int has_for_long(const struct boddurci_place *place, enum boddurci_file lock)
{
    return place->opened[lock] >= 0 && (lock == BODDURCI_WRITER || place->keeps_files);
}

int boddurci_has_it_here(const struct boddurci_place *place, enum boddurci_file lock)
{
    struct stat wanted, had;
    int is_here = 0;
    pid_t process = boddurci_this_process();
    if (this_thread == 0 || fstat(place->opened[lock], &wanted) != 0)
        return 0;
    take_places();
    for (const struct boddurci_place *at = places; at != NULL && !is_here; at = at->next)
        is_here = at->process == process && at->holder == this_thread && has_for_long(at, lock) && fstat(at->opened[lock], &had) == 0 &&
                  had.st_dev == wanted.st_dev && had.st_ino == wanted.st_ino;
    give_places();
    return is_here;
}
