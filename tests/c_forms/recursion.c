/* more than one function */
#include "boddurci_record.h"

static uint64_t depth(uint64_t n) // here
{
    return n < 2 ? n : depth(n - 1) + depth(n / 2);
}

uint64_t program(void *record, uint64_t record_length, const void *argument, uint64_t argument_length)
{
    const uint8_t *n = argument;
    (void)record, (void)record_length;
    if (argument_length < 1)
        return KEEP;
    boddurci_reply(depth(*n));
    return KEEP;
}
