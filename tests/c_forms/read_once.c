/* accepted */
#include "boddurci_record.h"

struct ring {
    uint64_t next, numbers[8];
};

uint64_t program(void *record, uint64_t record_length, const void *argument, uint64_t argument_length)
{
    struct ring *r = record;
    const uint64_t *number = argument;
    if (record_length < sizeof *r || argument_length < 8)
        return KEEP;
    uint64_t next = r->next;
    if (next >= 8)
        return KEEP;
    boddurci_reply(next);
    r->numbers[next] = *number;
    r->next = (next + 1) % 8;
    return SAVE;
}
