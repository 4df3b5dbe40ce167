/* accepted */
#include "boddurci_record.h"

uint64_t program(void *record, uint64_t record_length, const void *argument, uint64_t argument_length)
{
    uint64_t *sum = record;
    const uint64_t *amount = argument;
    if (record_length < 8 || argument_length < 8)
        return KEEP;
    *sum += *amount;
    return SAVE;
}
