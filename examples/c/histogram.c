/* A histogram of eight numbers: the lowest three bits of the argument's first byte select the number to increment.
 * SAVE: the number was incremented; the word is its new value. BODDURCI_TOO_SHORT: a length is too short. */
#include "boddurci_record.h"

struct histogram {
    uint64_t counts[8];
};

uint64_t program(void *record, uint64_t record_length, const void *argument, uint64_t argument_length)
{
    struct histogram *histogram = record;
    const uint8_t *value = argument;
    if (record_length < sizeof *histogram || argument_length < sizeof *value)
        return BODDURCI_TOO_SHORT;
    uint64_t *count = &histogram->counts[*value & 7];
    *count += 1;
    boddurci_reply(*count);
    return SAVE;
}
