/* Count, sum, minimum and maximum of a series of numbers, with the mean as the word.
 * SAVE: the number was added; the word is the mean, rounded down. KEEP: the sum or the count would be above 2^64 - 1.
 * BODDURCI_TOO_SHORT: a length is too short. */
#include "boddurci_record.h"

struct summary {
    uint64_t count, sum, least, greatest;
};

uint64_t program(void *record, uint64_t record_length, const void *argument, uint64_t argument_length)
{
    struct summary *summary = record;
    const uint64_t *number = argument;
    if (record_length < sizeof *summary || argument_length < sizeof *number)
        return BODDURCI_TOO_SHORT;
    if (*number > UINT64_MAX - summary->sum || summary->count == UINT64_MAX)
        return KEEP;
    if (summary->count == 0 || *number < summary->least)
        summary->least = *number;
    if (*number > summary->greatest)
        summary->greatest = *number;
    summary->count += 1;
    summary->sum += *number;
    boddurci_reply(summary->sum / summary->count);
    return SAVE;
}
