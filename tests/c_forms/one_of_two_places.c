/* Unset */
#include "boddurci_record.h"

/* The compiler chooses an address, in the record or in the argument, and loads once. */
uint64_t program(void *record, uint64_t record_length, const void *argument, uint64_t argument_length)
{
    uint64_t *tokens = record;
    const uint64_t *capacity = argument;
    if (record_length < 16 || argument_length < 16)
        return KEEP;
    uint64_t left = boddurci_present() ? tokens[1] : capacity[1]; // here
    if (left == 0)
        return KEEP;
    tokens[1] = left - 1;
    return SAVE;
}
