/* Increments the number in the record's first 8 bytes.
 * SAVE: the number was incremented. BODDURCI_TOO_SHORT: the record has fewer than 8 bytes. */
#include "boddurci_record.h"

uint64_t program(void *record, uint64_t record_length, const void *argument, uint64_t argument_length)
{
    uint64_t *count = record;
    (void)argument, (void)argument_length;
    if (record_length < sizeof *count)
        return BODDURCI_TOO_SHORT;
    *count += 1;
    return SAVE;
}
