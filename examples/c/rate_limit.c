/* A rate limit: a number of calls in a window of time; zeros are a window that began at 0.
 * SAVE: admitted; the word is the number of further calls that the window admits.
 * KEEP: not admitted; the word is the remaining time of the window, or the duration of a window if none is open.
 * BODDURCI_TOO_SHORT: a length is too short; the word is 0.
 * If no window is open, or it began later than now, a call begins one. */
#include "boddurci_record.h"

struct window {
    uint64_t began, count;
};
struct limit {
    uint64_t duration, most;
};

uint64_t program(void *record, uint64_t record_length, const void *argument, uint64_t argument_length)
{
    struct window *window = record;
    const struct limit *limit = argument;
    if (record_length < sizeof *window || argument_length < sizeof *limit)
        return BODDURCI_TOO_SHORT;
    uint64_t now = boddurci_now();
    uint64_t age = now - window->began;
    if (now < window->began || age >= limit->duration) {
        window->began = now;
        window->count = 0;
        age = 0;
    }
    if (window->count >= limit->most) {
        boddurci_reply(limit->duration - age);
        return KEEP;
    }
    window->count += 1;
    boddurci_reply(limit->most - window->count);
    return SAVE;
}
