/* Admits a request once: the record has the numbers, above 0, of the last thirty-two admitted requests.
 * SAVE: the request is new, and is stored. KEEP: it was admitted before, and the word is 1; or its number is 0, and the word is 0.
 * BODDURCI_TOO_SHORT: a length is too short; the word is 0. */
#include "boddurci_record.h"

enum { PLACES = 32 };

struct seen {
    uint64_t count, numbers[PLACES];
};

uint64_t program(void *record, uint64_t record_length, const void *argument, uint64_t argument_length)
{
    struct seen *seen = record;
    const uint64_t *number = argument;
    if (record_length < sizeof *seen || argument_length < sizeof *number)
        return BODDURCI_TOO_SHORT;
    if (*number == 0)
        return KEEP;
    for (uint64_t i = 0; i < PLACES; i++) {
        if (seen->numbers[i] == *number) {
            boddurci_reply(1);
            return KEEP;
        }
    }
    seen->numbers[seen->count % PLACES] = *number;
    seen->count += 1;
    return SAVE;
}
