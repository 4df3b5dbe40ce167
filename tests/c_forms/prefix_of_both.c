/* accepted */
#include "boddurci_record.h"

/* The length of the common prefix of sixteen bytes: both lengths are tested once, before the loop. */
uint64_t program(void *record, uint64_t record_length, const void *argument, uint64_t argument_length)
{
    const uint8_t *mine = record, *theirs = argument;
    uint64_t same = 0;
    if (record_length < 16 || argument_length < 16)
        return KEEP;
    for (uint64_t i = 0; i < 16; i++) {
        if (mine[i] != theirs[i])
            break;
        same++;
    }
    boddurci_reply(same);
    return KEEP;
}
