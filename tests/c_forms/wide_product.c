/* __multi3 */
#include "boddurci_record.h"

uint64_t program(void *record, uint64_t record_length, const void *argument, uint64_t argument_length)
{
    uint64_t *number = record;
    const uint64_t *factor = argument;
    if (record_length < 8 || argument_length < 8)
        return KEEP;
    *number = (uint64_t)((unsigned __int128)*number * *factor >> 64); // here
    return SAVE;
}
