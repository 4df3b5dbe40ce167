/* accepted */
#include "boddurci_record.h"

uint64_t program(void *record, uint64_t record_length, const void *argument, uint64_t argument_length)
{
    const uint64_t *words = record;
    uint64_t bits = 0;
    (void)argument, (void)argument_length;
    if (record_length < 64)
        return KEEP;
    for (int i = 0; i < 8; i++)
        bits += (uint64_t)__builtin_popcountll(words[i]);
    boddurci_reply(bits);
    return KEEP;
}
