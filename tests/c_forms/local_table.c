/* accepted */
#include "boddurci_record.h"

/* Counts each value below 16 among 32 bytes, by a local array. */
uint64_t program(void *record, uint64_t record_length, const void *argument, uint64_t argument_length)
{
    const uint8_t *values = argument;
    uint8_t counts[16] = {0}, most = 0;
    (void)record, (void)record_length;
    if (argument_length < 32)
        return KEEP;
    for (int i = 0; i < 32; i++)
        counts[values[i] & 15]++;
    for (int i = 0; i < 16; i++)
        most = counts[i] > most ? counts[i] : most;
    boddurci_reply(most);
    return KEEP;
}
