/* The last sixteen numbers, and the count of all: number n is at n modulo 16.
 * SAVE: the number is stored; the word is the one that it replaced. BODDURCI_TOO_SHORT: a length is too short. */
#include "boddurci_record.h"

enum { PLACES = 16 };

struct ring {
    uint64_t count, numbers[PLACES];
};

uint64_t program(void *record, uint64_t record_length, const void *argument, uint64_t argument_length)
{
    struct ring *ring = record;
    const uint64_t *number = argument;
    if (record_length < sizeof *ring || argument_length < sizeof *number)
        return BODDURCI_TOO_SHORT;
    uint64_t *place = &ring->numbers[ring->count % PLACES];
    boddurci_reply(*place);
    *place = *number;
    ring->count += 1;
    return SAVE;
}
