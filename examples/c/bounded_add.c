/* Adds an amount to the record's number, unless the sum would be above a bound.
 * SAVE: the amount was added. KEEP: the sum would be above the bound. BODDURCI_TOO_SHORT: a length is too short. */
#include "boddurci_record.h"

struct request {
    uint64_t amount, bound;
};

uint64_t program(void *record, uint64_t record_length, const void *argument, uint64_t argument_length)
{
    uint64_t *sum = record;
    const struct request *request = argument;
    if (record_length < sizeof *sum || argument_length < sizeof *request)
        return BODDURCI_TOO_SHORT;
    if (*sum > request->bound || request->amount > request->bound - *sum)
        return KEEP;
    *sum += request->amount;
    return SAVE;
}
