/* A lease with an owner of 16 bytes, renewals, and a fencing number that grows with each new owner. The fencing number shows whether a
 * write comes late, from an earlier owner.
 * SAVE: taken, renewed or released; the word is the fencing number.
 * KEEP: a take while the lease lasts, a renewal or release by a caller who does not have it, or an invalid operation; the word is 0.
 * BODDURCI_TOO_SHORT: a length is too short; the word is 0.
 * A lease ends at 2^64 - 1 at the latest. */
#include "boddurci_record.h"

enum { TAKE, RENEW, GIVE_BACK };

struct lease {
    uint64_t owner[2], ends, fence, renewals;
};
struct request {
    uint64_t owner[2], duration, operation;
};

static inline int is_owner(const struct lease *lease, const struct request *request)
{
    return ((lease->owner[0] ^ request->owner[0]) | (lease->owner[1] ^ request->owner[1])) == 0;
}

uint64_t program(void *record, uint64_t record_length, const void *argument, uint64_t argument_length)
{
    struct lease *lease = record;
    const struct request *request = argument;
    if (record_length < sizeof *lease || argument_length < sizeof *request)
        return BODDURCI_TOO_SHORT;
    uint64_t now = boddurci_now();
    int lasts = lease->ends > now;
    switch (request->operation) {
    case TAKE:
        if (lasts)
            return KEEP;
        lease->owner[0] = request->owner[0];
        lease->owner[1] = request->owner[1];
        lease->fence += 1;
        lease->renewals = 0;
        break;
    case RENEW:
        if (!lasts || !is_owner(lease, request))
            return KEEP;
        lease->renewals += 1;
        break;
    case GIVE_BACK:
        if (!lasts || !is_owner(lease, request))
            return KEEP;
        lease->ends = now;
        boddurci_reply(lease->fence);
        return SAVE;
    default:
        return KEEP;
    }
    lease->ends = now > UINT64_MAX - request->duration ? UINT64_MAX : now + request->duration;
    boddurci_reply(lease->fence);
    return SAVE;
}
