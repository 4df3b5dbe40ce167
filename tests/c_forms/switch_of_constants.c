/* accepted */
#include "boddurci_record.h"

static uint64_t weight(uint8_t kind)
{
    switch (kind) {
    case 0: return 5;
    case 1: return 17;
    case 2: return 3;
    case 3: return 99;
    case 4: return 42;
    case 5: return 7;
    default: return 0;
    }
}

uint64_t program(void *record, uint64_t record_length, const void *argument, uint64_t argument_length)
{
    uint64_t *sum = record;
    const uint8_t *kind = argument;
    if (record_length < 8 || argument_length < 1)
        return KEEP;
    *sum += weight(*kind);
    return SAVE;
}
