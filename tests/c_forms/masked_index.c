/* accepted */
#include "boddurci_record.h"

/* A mask, and a remainder modulo eight, which the compiler turns into a mask. */
struct ring {
    uint64_t next, numbers[8];
};

uint64_t program(void *record, uint64_t record_length, const void *argument, uint64_t argument_length)
{
    struct ring *r = record;
    const uint64_t *number = argument;
    if (record_length < sizeof *r || argument_length < 8)
        return KEEP;
    uint64_t i = r->next;
    r->numbers[i & 7] += *number;
    r->numbers[(i + 1) % 8] = *number;
    r->next = i + 1;
    return SAVE;
}
