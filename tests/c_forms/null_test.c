/* PointerOp */
#include "boddurci_record.h"

uint64_t program(void *record, uint64_t record_length, const void *argument, uint64_t argument_length)
{
    uint64_t *count = record;
    (void)argument, (void)argument_length;
    if (!record || record_length < 8) // here
        return KEEP;
    *count += 1;
    return SAVE;
}
