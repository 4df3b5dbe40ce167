/* accepted */
#include "boddurci_record.h"

/* Up to 128 bytes, in pieces of eight. Each length is tested. */
uint64_t program(void *record, uint64_t record_length, const void *argument, uint64_t argument_length)
{
    uint64_t *to = record;
    const uint64_t *from = argument;
    if (record_length < 128)
        return KEEP;
    for (uint64_t i = 0; i < 16; i++)
        if (argument_length >= 8 * i + 8)
            to[i] = from[i];
    return SAVE;
}
