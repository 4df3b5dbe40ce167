/* accepted or PointerRange by clang 14 */
#include "boddurci_record.h"

/* The compiler knows that a remainder is less than 5, and drops the test. */
struct ring {
    uint64_t next, numbers[5];
};

uint64_t program(void *record, uint64_t record_length, const void *argument, uint64_t argument_length)
{
    struct ring *r = record;
    const uint64_t *number = argument;
    if (record_length < sizeof *r || argument_length < 8)
        return KEEP;
    uint64_t at = r->next % 5;
    if (at >= 5)
        return KEEP;
    r->numbers[at] = *number; // here
    r->next++;
    return SAVE;
}
