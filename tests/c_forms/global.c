/* the address of total */
#include "boddurci_record.h"

uint64_t total;

uint64_t program(void *record, uint64_t record_length, const void *argument, uint64_t argument_length)
{
    (void)record, (void)record_length, (void)argument, (void)argument_length;
    total += 1; // here
    boddurci_reply(total);
    return KEEP;
}
