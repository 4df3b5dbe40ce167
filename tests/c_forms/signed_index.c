/* accepted */
#include "boddurci_record.h"

uint64_t program(void *record, uint64_t record_length, const void *argument, uint64_t argument_length)
{
    uint64_t *counts = record;
    const int *index = argument;
    if (record_length < 64 || argument_length < 4)
        return KEEP;
    if (*index < 0 || *index >= 8)
        return KEEP;
    counts[*index] += 1;
    return SAVE;
}
