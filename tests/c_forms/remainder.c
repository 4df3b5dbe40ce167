/* accepted or PointerRange by clang 14 */
#include "boddurci_record.h"

/* A remainder has no bound if the compiler turns it into a division, a product and a difference. */
struct ring {
    uint64_t next, numbers[5];
};

uint64_t program(void *record, uint64_t record_length, const void *argument, uint64_t argument_length)
{
    struct ring *r = record;
    const uint64_t *number = argument;
    if (record_length < sizeof *r || argument_length < 8)
        return KEEP;
    uint64_t i = r->next;
    r->numbers[i % 5] = *number; // here
    r->next = i + 1;
    return SAVE;
}
