/* A lease: its owner and its end; zeros are a lease that has ended.
 * SAVE: the caller has the lease, new or renewed, until the time in the word.
 * DELETE: the duration is 0, and the caller has released the lease or the lease had ended.
 * KEEP: another owner has the lease until the time in the word.
 * BODDURCI_TOO_SHORT: a length is too short; the word is 0.
 * A lease ends at 2^64 - 1 at the latest: at that time all leases have ended. */
#include "boddurci_record.h"

struct lease {
    uint64_t holder, ends;
};
struct request {
    uint64_t holder, duration;
};

uint64_t program(void *record, uint64_t record_length, const void *argument, uint64_t argument_length)
{
    struct lease *lease = record;
    const struct request *request = argument;
    if (record_length < sizeof *lease || argument_length < sizeof *request)
        return BODDURCI_TOO_SHORT;
    uint64_t now = boddurci_now();
    if (lease->ends > now && lease->holder != request->holder) {
        boddurci_reply(lease->ends);
        return KEEP;
    }
    if (request->duration == 0)
        return DELETE;
    uint64_t ends = now + request->duration;
    if (ends < now)
        ends = UINT64_MAX;
    lease->holder = request->holder;
    lease->ends = ends;
    boddurci_reply(ends);
    return SAVE;
}
