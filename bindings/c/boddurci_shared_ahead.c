/* Executes the command of a change before the locks of a shared base are taken, if other processes use the base. So the locks are held for less
 * time. The result is a guess: the files are read without a lock, so their bytes may be old, or a mix of old and new ones. The call
 * uses the result only if it reads the same bytes again under the locks. docs/DECISIONS.md gives the reasons under "Calls from C". */
#define _GNU_SOURCE
#include "boddurci_shared_base.h"
#include <stdlib.h>
#include <string.h>

/* A longer .dir, or a longer plan, is not kept. */
enum { DIRECTORY_MOST = 32768, PLAN_MOST = 16384 };

/* The result of a command, and all bytes that it depends on. */
struct boddurci_ahead {
    int is_ready;              /* the other fields belong to the command of this call */
    struct boddurci_part part; /* the page of the key */
    uint32_t status;           /* of the command */
    uint64_t end, word;        /* of a run */
    struct boddurci_planned planned;
    uint8_t page[8192];
    uint8_t directory[DIRECTORY_MOST];
    uint8_t plan[PLAN_MOST];
};

void boddurci_see_log(boddurci_shared *shared)
{
    enum { CALLS = 8 };
    const struct boddurci_tail *tail = &shared->tail;
    const struct boddurci_logged *logged = &shared->logged;
    int is_known = logged->epoch != 0, is_same = tail->epoch == logged->epoch && tail->end.at == logged->next.end;
    if (is_known && !is_same)
        shared->others = CALLS;
    else if (shared->others > 0)
        shared->others--;
}

/* Returns whether to execute a command ahead: other processes use the base, and the last results were not in vain. A command that reads the
 * clock has to read it under the locks. A file system that is not local may keep what it read without a lock. */
static int is_worthwhile(boddurci_shared *shared, const struct boddurci_command *command)
{
    int is_possible = command->kind != BODDURCI_FETCH && command->per_second == 0 && shared->notes.is_local;
    if (!is_possible || shared->others == 0 || shared->notes.files[BODDURCI_DIRECTORY].length > DIRECTORY_MOST)
        return 0;
    if (shared->skips == 0)
        return 1;
    shared->skips--;
    return 0;
}

/* Notes that a command was executed in vain, or could not be executed. Each such time after another one doubles the number of calls that
 * then execute no command ahead. */
static void miss(boddurci_shared *shared)
{
    enum { MOST = 6 };
    shared->skips = (1 << shared->misses) - 1;
    shared->misses += shared->misses < MOST;
}

/* Reads the tail of the log and the page of a key without a lock. All files must be open. Returns 0 if the log has no valid note, or if a read
 * fails. `last` is restored, since only a call with locks may decide that the last page is right. */
static int read_unlocked(boddurci_shared *shared, const struct boddurci_command *command, struct boddurci_part *part)
{
    int is_whole;
    boddurci_fault unsaid;
    struct boddurci_log_note note;
    struct boddurci_note last[2];
    const int *files = shared->logged.disk.files;
    int lock = boddurci_notes_of(&shared->place);
    if (lock < 0 || files[BODDURCI_PAGES] < 0 || files[BODDURCI_DIRECTORY] < 0 || files[BODDURCI_REDO] < 0)
        return 0;
    if (boddurci_look_at_note(files[BODDURCI_REDO], lock, &shared->boot, &note) != BODDURCI_NOTED)
        return 0;
    if (boddurci_glance_at_tail(shared, files[BODDURCI_REDO], &note) != BODDURCI_DONE)
        return 0;
    memcpy(last, shared->last, sizeof last);
    uint32_t status = boddurci_read_part(shared, command, part, &is_whole, &unsaid);
    memcpy(shared->last, last, sizeof last);
    return status == BODDURCI_DONE && !is_whole && part->directory <= DIRECTORY_MOST;
}

static int is_reply(uint32_t status)
{
    return status == BODDURCI_DONE || status == BODDURCI_MISSING || status == BODDURCI_EXISTS || status == BODDURCI_CROWDED;
}

/* Executes a command and keeps its result, with the bytes that it depends on. Returns 0 if the result cannot be kept. */
static int execute(boddurci_shared *shared, struct boddurci_command command, struct boddurci_ahead *ahead)
{
    int is_whole;
    ahead->status = boddurci_execute(shared, &command, &ahead->part, &ahead->planned, &is_whole);
    if (is_whole || !is_reply(ahead->status) || ahead->planned.length > PLAN_MOST)
        return 0;
    ahead->end = command.end;
    ahead->word = command.word;
    memcpy(ahead->page, shared->page, ahead->part.size);
    memcpy(ahead->directory, shared->directory, ahead->part.directory);
    memcpy(ahead->plan, shared->plan + BODDURCI_PLAN_AT, ahead->planned.length);
    return 1;
}

void boddurci_work_ahead(boddurci_shared *shared, const struct boddurci_command *command)
{
    if (shared->ahead != NULL)
        shared->ahead->is_ready = 0;
    if (!is_worthwhile(shared, command))
        return;
    if (shared->ahead == NULL && (shared->ahead = malloc(sizeof *shared->ahead)) == NULL)
        return;
    struct boddurci_ahead *ahead = shared->ahead;
    ahead->is_ready = read_unlocked(shared, command, &ahead->part) && execute(shared, *command, ahead);
    if (!ahead->is_ready)
        miss(shared);
}

/* Returns whether the bytes that were read under the locks are those that the result depends on. The number of the page depends only on .dir. */
static int has_same_bytes(const boddurci_shared *shared, const struct boddurci_part *part)
{
    const struct boddurci_ahead *ahead = shared->ahead;
    return ahead->part.length == part->length && ahead->part.directory == part->directory &&
           memcmp(ahead->page, shared->page, part->size) == 0 && memcmp(ahead->directory, shared->directory, part->directory) == 0;
}

int boddurci_take_ahead(boddurci_shared *shared, const struct boddurci_part *part, struct boddurci_command *command,
                        struct boddurci_planned *planned, uint32_t *status)
{
    const struct boddurci_ahead *ahead = shared->ahead;
    if (ahead == NULL || !ahead->is_ready)
        return 0;
    if (!has_same_bytes(shared, part)) {
        miss(shared);
        return 0;
    }
    shared->misses = 0;
    command->end = ahead->end;
    command->word = ahead->word;
    *planned = ahead->planned;
    *status = ahead->status;
    memcpy(shared->plan + BODDURCI_PLAN_AT, ahead->plan, planned->length);
    return 1;
}
