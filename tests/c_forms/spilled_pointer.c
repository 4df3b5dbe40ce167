/* PointerStored */
#include "boddurci_record.h"

/* A token bucket with more live values across a call than registers that survive it: R6 to R9. */
struct bucket {
    uint64_t tokens, filled;
};
struct request {
    uint64_t interval, capacity, cost;
};

uint64_t program(void *record, uint64_t record_length, const void *argument, uint64_t argument_length)
{
    struct bucket *bucket = record;
    const struct request *request = argument;
    if (record_length < sizeof *bucket || argument_length < sizeof *request)
        return KEEP;
    uint64_t now = boddurci_now();
    uint64_t interval = request->interval | (request->interval == 0);
    uint64_t tokens = bucket->tokens, filled = bucket->filled;
    if (!boddurci_present()) {
        tokens = request->capacity;
        filled = now;
    }
    if (now > filled) {
        uint64_t more = (now - filled) / interval;
        filled += more * interval;
        tokens += more;
    }
    if (tokens < request->cost)
        return KEEP;
    bucket->tokens = tokens - request->cost;
    bucket->filled = filled;
    return SAVE;
}
