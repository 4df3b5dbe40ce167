/* accepted */
#include "boddurci_record.h"

/* Many values, with the helpers first: no call comes after the loads. */
struct bucket {
    uint64_t tokens, filled;
};
struct request {
    uint64_t interval, capacity, cost;
};

uint64_t program(void *record, uint64_t record_length, const void *argument, uint64_t argument_length)
{
    struct bucket *bucket = record;
    const struct request *request = argument;
    if (record_length < sizeof *bucket || argument_length < sizeof *request)
        return KEEP;
    uint64_t now = boddurci_now(), who = boddurci_who();
    uint64_t interval = request->interval | (request->interval == 0);
    uint64_t tokens = bucket->tokens, filled = bucket->filled, capacity = request->capacity, cost = request->cost;
    if (now > filled) {
        uint64_t more = (now - filled) / interval;
        filled += more * interval;
        tokens = tokens + more > capacity ? capacity : tokens + more;
    }
    if (tokens < cost || who == 0)
        return KEEP;
    bucket->tokens = tokens - cost;
    bucket->filled = filled;
    return SAVE;
}
