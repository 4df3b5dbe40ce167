/* accepted */
#include "boddurci_record.h"

/* A division by zero gives 0 here and is undefined in C, so the program tests for zero. */
uint64_t program(void *record, uint64_t record_length, const void *argument, uint64_t argument_length)
{
    uint64_t *number = record;
    const uint64_t *by = argument;
    if (record_length < 8 || argument_length < 8 || *by == 0)
        return KEEP;
    uint64_t a = *number, b = *by;
    *number = a / b;
    return SAVE;
}
