/* A quota that starts again with each day. The time is in seconds since 1970.
 * SAVE: the amount is used; the word is the amount that is left for the day.
 * KEEP: too little is left; the word is the number of seconds until the next day.
 * BODDURCI_TOO_SHORT: a length is too short; the word is 0.
 * WRONG_UNIT, 5: the time is above 10^11; the word is 0. In seconds that is the year 5138, so the unit is milliseconds or smaller. */
#include "boddurci_record.h"

enum { DAY = 86400, WRONG_UNIT = 5 };
static const uint64_t LAST_SECOND = 100000000000;

struct quota {
    uint64_t day, used;
};
struct request {
    uint64_t amount, most;
};

uint64_t program(void *record, uint64_t record_length, const void *argument, uint64_t argument_length)
{
    struct quota *quota = record;
    const struct request *request = argument;
    if (record_length < sizeof *quota || argument_length < sizeof *request)
        return BODDURCI_TOO_SHORT;
    uint64_t now = boddurci_now();
    if (now > LAST_SECOND)
        return WRONG_UNIT;
    uint64_t day = now / DAY;
    uint64_t used = quota->day == day ? quota->used : 0;
    if (used > request->most || request->amount > request->most - used) {
        boddurci_reply(DAY - now % DAY);
        return KEEP;
    }
    quota->day = day;
    quota->used = used + request->amount;
    boddurci_reply(request->most - quota->used);
    return SAVE;
}
