/* the address of a constant */
#include "boddurci_record.h"

uint64_t program(void *record, uint64_t record_length, const void *argument, uint64_t argument_length)
{
    (void)argument, (void)argument_length;
    if (record_length < 16)
        return KEEP;
    boddurci_copy(record, "hello, everybody", 16); // here
    return SAVE;
}
