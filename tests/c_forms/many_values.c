/* accepted */
#include "boddurci_record.h"

/* A lease with more live numbers than registers that survive a call. */
struct lease {
    uint64_t holder, ends, renewals, waits;
};
struct request {
    uint64_t holder, duration, most, fee;
};

uint64_t program(void *record, uint64_t record_length, const void *argument, uint64_t argument_length)
{
    struct lease *lease = record;
    const struct request *request = argument;
    if (record_length < sizeof *lease || argument_length < sizeof *request)
        return KEEP;
    uint64_t holder = lease->holder, ends = lease->ends, renewals = lease->renewals;
    uint64_t who = boddurci_who(), now = boddurci_now(), new = !boddurci_present();
    if (!new && ends > now && holder != request->holder) {
        lease->waits += request->fee + who;
        boddurci_reply(ends - now);
        return SAVE;
    }
    if (renewals >= request->most)
        return KEEP;
    lease->holder = request->holder;
    lease->renewals = holder == request->holder ? renewals + 1 : 0;
    lease->ends = now + request->duration;
    boddurci_reply(request->duration);
    return SAVE;
}
