/* A set of numbers from 0 to 511, one bit each.
 * SAVE: the number was added, removed or toggled. KEEP: nothing changed, or the number or the operation is invalid.
 * BODDURCI_TOO_SHORT: a length is too short. The word is 1 if the number was in the set before, and 0 otherwise. */
#include "boddurci_record.h"

enum { BITS = 512 };
enum { ASK, PUT, TAKE, TURN };

struct request {
    uint32_t operation, number;
};

uint64_t program(void *record, uint64_t record_length, const void *argument, uint64_t argument_length)
{
    uint64_t *words = record;
    const struct request *request = argument;
    if (record_length < BITS / 8 || argument_length < sizeof *request)
        return BODDURCI_TOO_SHORT;
    uint64_t number = request->number;
    if (number >= BITS)
        return KEEP;
    uint64_t *word = &words[number / 64], old = *word, bit = 1ull << (number % 64);
    boddurci_reply((old & bit) != 0);
    switch (request->operation) {
    case PUT:
        *word = old | bit;
        break;
    case TAKE:
        *word = old & ~bit;
        break;
    case TURN:
        *word = old ^ bit;
        break;
    default:
        return KEEP;
    }
    return *word == old ? KEEP : SAVE;
}
