/* accepted */
#include "boddurci_record.h"

/* Adds a number with its sign, and stays between 0 and 1,000. */
uint64_t program(void *record, uint64_t record_length, const void *argument, uint64_t argument_length)
{
    int64_t *stock = record;
    const int64_t *delta = argument;
    if (record_length < 8 || argument_length < 8)
        return KEEP;
    if (*delta > 1000 || *delta < -1000)
        return KEEP;
    int64_t next = *stock + *delta;
    if (next < 0 || next > 1000)
        return KEEP;
    *stock = next;
    return SAVE;
}
