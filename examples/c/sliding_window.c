/* A sliding window: a number of calls in any interval of one duration, estimated from the count of this window and the covered part of
 * the count of the last window. Duration and limit are below 2^32, and the duration is above 0.
 * SAVE: admitted; the word is the number of further calls. KEEP: not admitted, or a number is out of range; the word is 0.
 * BODDURCI_TOO_SHORT: a length is too short; the word is 0. */
#include "boddurci_record.h"

struct counts {
    uint64_t window, now, before; /* the number of the window, its count, and the count of the window before */
};
struct limit {
    uint64_t duration, most;
};

uint64_t program(void *record, uint64_t record_length, const void *argument, uint64_t argument_length)
{
    struct counts *counts = record;
    const struct limit *limit = argument;
    if (record_length < sizeof *counts || argument_length < sizeof *limit)
        return BODDURCI_TOO_SHORT;
    uint64_t duration = limit->duration, most = limit->most;
    if (duration == 0 || duration > UINT32_MAX || most > UINT32_MAX)
        return KEEP;
    uint64_t now = boddurci_now();
    uint64_t window = now / duration;
    if (window == counts->window + 1) {
        counts->before = counts->now;
        counts->now = 0;
    } else if (window != counts->window) {
        counts->before = 0;
        counts->now = 0;
    }
    counts->window = window;
    uint64_t covered = duration - now % duration;
    uint64_t used = counts->now + counts->before * covered / duration;
    if (used >= most)
        return KEEP;
    counts->now += 1;
    boddurci_reply(most - used - 1);
    return SAVE;
}
