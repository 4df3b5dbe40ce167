/* no function program */
#include "boddurci_record.h"

uint64_t counter(void *record, uint64_t record_length)
{
    uint64_t *count = record;
    if (record_length < 8)
        return KEEP;
    *count += 1;
    return SAVE;
}
