/* OutOfRecord */
#include "boddurci_record.h"

uint64_t program(void *record, uint64_t record_length, const void *argument, uint64_t argument_length)
{
    uint8_t *bytes = record;
    (void)argument, (void)argument_length;
    if (record_length < 8)
        return KEEP;
    bytes[record_length - 1] += 1; // here
    return SAVE;
}
