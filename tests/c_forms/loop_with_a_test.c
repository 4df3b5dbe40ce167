/* accepted */
#include "boddurci_record.h"

/* The head compares only with a constant, and the body tests the length. */
uint64_t program(void *record, uint64_t record_length, const void *argument, uint64_t argument_length)
{
    const uint8_t *bytes = argument;
    uint64_t sum = 0;
    (void)record, (void)record_length;
    for (uint64_t i = 0; i < 64; i++)
        if (i < argument_length)
            sum += bytes[i];
    boddurci_reply(sum);
    return KEEP;
}
