/* the address of weights */
#include "boddurci_record.h"

static const uint64_t weights[8] = {5, 17, 3, 99, 42, 7, 1, 0};

uint64_t program(void *record, uint64_t record_length, const void *argument, uint64_t argument_length)
{
    uint64_t *sum = record;
    const uint8_t *kind = argument;
    if (record_length < 8 || argument_length < 1)
        return KEEP;
    *sum += weights[*kind & 7]; // here
    return SAVE;
}
