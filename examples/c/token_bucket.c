/* A token bucket: it fills at a rate up to its capacity, and each call takes tokens. A new bucket is full.
 * SAVE: the tokens were taken; the word is the number that is left.
 * KEEP: too few tokens are left; the word is the time to wait until there are enough, or 2^64 - 1 if there never will be.
 * If the interval is 0, the word is 0.
 * BODDURCI_TOO_SHORT: a length is too short; the word is 0.
 * A clock that goes back adds nothing. If the clock was ahead once, by more than the time to fill the bucket, that time is ignored: the
 * bucket counts as a new one. The cost times the interval must be below 2^63. */
#include "boddurci_record.h"

struct bucket {
    uint64_t tokens, filled;
};
struct request {
    uint64_t interval, capacity, cost; /* one more token per interval */
};

uint64_t program(void *record, uint64_t record_length, const void *argument, uint64_t argument_length)
{
    struct bucket *bucket = record;
    const struct request *request = argument;
    if (record_length < sizeof *bucket || argument_length < sizeof *request)
        return BODDURCI_TOO_SHORT;
    uint64_t present = boddurci_present(), now = boddurci_now();
    uint64_t interval = request->interval, capacity = request->capacity, cost = request->cost;
    uint64_t tokens = capacity, filled = now;
    if (interval == 0)
        return KEEP;
    if (present) {
        tokens = bucket->tokens;
        filled = bucket->filled;
    }
    if (filled > now && (filled - now) / interval >= capacity) {
        tokens = capacity;
        filled = now;
    }
    if (now > filled) {
        uint64_t more = (now - filled) / interval;
        tokens = more > UINT64_MAX - tokens ? UINT64_MAX : tokens + more;
        filled += more * interval;
    }
    if (tokens >= capacity) {
        tokens = capacity;
        filled = now > filled ? now : filled;
    }
    if (tokens < cost) {
        boddurci_reply(cost > capacity ? UINT64_MAX : filled + (cost - tokens) * interval - now);
        return KEEP;
    }
    bucket->tokens = tokens - cost;
    bucket->filled = filled;
    boddurci_reply(bucket->tokens);
    return SAVE;
}
