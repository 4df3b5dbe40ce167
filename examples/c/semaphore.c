/* A semaphore of eight permits, each with a holder, above 0, and an end, so that the permit of a dead holder becomes free.
 * A caller that has a permit renews it; a duration of 0 releases it.
 * SAVE: the caller has a permit until the time in the word, or has released it, and the word is 0.
 * KEEP: no permit is free, or the caller has none to release; the word is 0. BODDURCI_TOO_SHORT: a length is too short; the word is 0.
 * A permit ends at 2^64 - 1 at the latest. */
#include "boddurci_record.h"

enum { PERMITS = 8 };

struct permit {
    uint64_t holder, ends;
};
struct request {
    uint64_t holder, duration;
};

uint64_t program(void *record, uint64_t record_length, const void *argument, uint64_t argument_length)
{
    struct permit *permits = record;
    const struct request *request = argument;
    if (record_length < PERMITS * sizeof *permits || argument_length < sizeof *request)
        return BODDURCI_TOO_SHORT;
    uint64_t now = boddurci_now();
    uint64_t mine = PERMITS, free = PERMITS;
    for (uint64_t i = 0; i < PERMITS; i++) {
        if (permits[i].ends <= now)
            free = i;
        else if (permits[i].holder == request->holder)
            mine = i;
    }
    uint64_t chosen = mine < PERMITS ? mine : free;
    if (chosen >= PERMITS || (request->duration == 0 && mine >= PERMITS))
        return KEEP;
    struct permit *permit = &permits[chosen];
    permit->holder = request->holder;
    permit->ends = now > UINT64_MAX - request->duration ? UINT64_MAX : now + request->duration;
    boddurci_reply(request->duration == 0 ? 0 : permit->ends);
    return SAVE;
}
