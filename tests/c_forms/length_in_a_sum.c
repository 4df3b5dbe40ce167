/* OutOfRecord */
#include "boddurci_record.h"

struct header {
    uint64_t count, numbers[4];
};

uint64_t program(void *record, uint64_t record_length, const void *argument, uint64_t argument_length)
{
    struct header *header = record;
    (void)argument;
    if (record_length + argument_length < 40)
        return KEEP;
    header->count += 1; // here
    return SAVE;
}
