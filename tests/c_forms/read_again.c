/* PointerRange */
#include "boddurci_record.h"

/* The index is tested, and then read again, since a helper might have changed it. */
struct ring {
    uint64_t next, numbers[8];
};

uint64_t program(void *record, uint64_t record_length, const void *argument, uint64_t argument_length)
{
    struct ring *r = record;
    const uint64_t *number = argument;
    if (record_length < sizeof *r || argument_length < 8)
        return KEEP;
    if (r->next >= 8)
        return KEEP;
    boddurci_reply(r->next);
    r->numbers[r->next] = *number; // here
    r->next = (r->next + 1) % 8;
    return SAVE;
}
