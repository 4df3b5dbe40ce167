/* accepted */
#include "boddurci_record.h"

uint64_t program(void *record, uint64_t record_length, const void *argument, uint64_t argument_length)
{
    uint32_t *number = record;
    (void)argument, (void)argument_length;
    if (record_length < 4)
        return KEEP;
    *number = __builtin_bswap32(__builtin_bswap32(*number) + 1);
    return SAVE;
}
