/* accepted */
#include "boddurci_record.h"

/* In the style of programs for packets; the compiler turns it into a test of the length. */
uint64_t program(void *record, uint64_t record_length, const void *argument, uint64_t argument_length)
{
    uint8_t *bytes = record, *end = bytes + record_length;
    (void)argument, (void)argument_length;
    if (bytes + 8 > end)
        return KEEP;
    *(uint64_t *)bytes += 1;
    return SAVE;
}
