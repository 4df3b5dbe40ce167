/* accepted or OutOfArgument by clang 19 */
#include "boddurci_record.h"

/* The length of the common prefix of the first sixteen bytes; either may be shorter. */
uint64_t program(void *record, uint64_t record_length, const void *argument, uint64_t argument_length)
{
    const uint8_t *mine = record, *theirs = argument;
    uint64_t same = 0;
    for (uint64_t i = 0; i < 16; i++) {
        if (record_length <= i || argument_length <= i)
            break;
        if (mine[i] != theirs[i])
            break;
        same++;
    }
    boddurci_reply(same);
    return KEEP;
}
