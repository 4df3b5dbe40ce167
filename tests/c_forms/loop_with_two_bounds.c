/* Backward */
#include "boddurci_record.h"

/* A loop with both bounds in its head. */
uint64_t program(void *record, uint64_t record_length, const void *argument, uint64_t argument_length)
{
    const uint8_t *bytes = argument;
    uint64_t hash = 0xcbf29ce484222325;
    (void)record, (void)record_length;
    UNROLL(64)
    for (uint64_t i = 0; i < argument_length && i < 64; i++) // here
        hash = (hash ^ bytes[i]) * 0x100000001b3;
    boddurci_reply(hash);
    return KEEP;
}
