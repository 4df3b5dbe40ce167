/* accepted */
#include "boddurci_record.h"

/* Each of 32 numbers becomes the maximum of itself and the argument's number at the same index. */
uint64_t program(void *record, uint64_t record_length, const void *argument, uint64_t argument_length)
{
    uint64_t *mine = record;
    const uint64_t *theirs = argument;
    if (record_length < 256 || argument_length < 256)
        return KEEP;
    for (int i = 0; i < 32; i++)
        if (theirs[i] > mine[i])
            mine[i] = theirs[i];
    return SAVE;
}
