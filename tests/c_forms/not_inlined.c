/* more than one function */
#include "boddurci_record.h"

__attribute__((noinline)) static uint64_t mixed(uint64_t n) // here
{
    n ^= n >> 31;
    n *= 0x9e3779b97f4a7c15;
    return n ^ n >> 29;
}

uint64_t program(void *record, uint64_t record_length, const void *argument, uint64_t argument_length)
{
    uint64_t *number = record;
    (void)argument, (void)argument_length;
    if (record_length < 8)
        return KEEP;
    *number = mixed(*number);
    return SAVE;
}
