/* accepted */
#include "boddurci_record.h"

/* The index is in the record. The program tests the same value that it then uses. */
struct ring {
    uint64_t next, numbers[5];
};

uint64_t program(void *record, uint64_t record_length, const void *argument, uint64_t argument_length)
{
    struct ring *r = record;
    const uint64_t *number = argument;
    if (record_length < sizeof *r || argument_length < 8)
        return KEEP;
    uint64_t at = r->next;
    if (at >= 5)
        return KEEP;
    r->numbers[at] = *number;
    r->next = (at + 1) % 5;
    return SAVE;
}
