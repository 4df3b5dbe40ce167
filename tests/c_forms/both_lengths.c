/* accepted */
#include "boddurci_record.h"

uint64_t program(void *record, uint64_t record_length, const void *argument, uint64_t argument_length)
{
    uint64_t *sum = record;
    const uint64_t *numbers = argument;
    if (record_length < 8 || argument_length < 32)
        return KEEP;
    *sum += numbers[0] + numbers[3];
    return SAVE;
}
