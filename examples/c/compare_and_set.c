/* Compares and sets: replaces a number if it is the expected one.
 * SAVE: the number was replaced. KEEP: the number is not the expected one. The word is the number before the run.
 * BODDURCI_TOO_SHORT: a length is too short, and the word is 0. */
#include "boddurci_record.h"

struct change {
    uint64_t expected, next;
};

uint64_t program(void *record, uint64_t record_length, const void *argument, uint64_t argument_length)
{
    uint64_t *number = record;
    const struct change *change = argument;
    if (record_length < sizeof *number || argument_length < sizeof *change)
        return BODDURCI_TOO_SHORT;
    boddurci_reply(*number);
    if (*number != change->expected)
        return KEEP;
    *number = change->next;
    return SAVE;
}
