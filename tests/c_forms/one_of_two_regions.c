/* Unset */
#include "boddurci_record.h"

uint64_t program(void *record, uint64_t record_length, const void *argument, uint64_t argument_length)
{
    const uint64_t *number = argument_length < 8 ? record : argument;
    if (record_length < 8)
        return KEEP;
    boddurci_reply(*number); // here
    return KEEP;
}
