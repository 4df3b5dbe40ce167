/* accepted */
#include "boddurci_record.h"

/* Loads both numbers, and then chooses one. */
uint64_t program(void *record, uint64_t record_length, const void *argument, uint64_t argument_length)
{
    uint64_t *tokens = record;
    const uint64_t *capacity = argument;
    if (record_length < 16 || argument_length < 16)
        return KEEP;
    uint64_t left = capacity[1], kept = tokens[1];
    if (boddurci_present())
        left = kept;
    if (left == 0)
        return KEEP;
    tokens[1] = left - 1;
    return SAVE;
}
