/* more than one function */
#include "boddurci_record.h"

uint64_t twice(uint64_t n) // here
{
    return 2 * n;
}

uint64_t program(void *record, uint64_t record_length, const void *argument, uint64_t argument_length)
{
    uint64_t *number = record;
    (void)argument, (void)argument_length;
    if (record_length < 8)
        return KEEP;
    *number = twice(*number);
    return SAVE;
}
