/* accepted or signed division by clang 14 or signed division by clang 16 */
#include "boddurci_record.h"

uint64_t program(void *record, uint64_t record_length, const void *argument, uint64_t argument_length)
{
    int64_t *number = record;
    const int64_t *by = argument;
    if (record_length < 8 || argument_length < 8)
        return KEEP;
    int64_t a = *number, b = *by;
    *number = a / b; // here
    return SAVE;
}
