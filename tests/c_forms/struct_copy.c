/* accepted */
#include "boddurci_record.h"

struct state {
    uint64_t numbers[8];
};

uint64_t program(void *record, uint64_t record_length, const void *argument, uint64_t argument_length)
{
    if (record_length < sizeof(struct state) || argument_length < sizeof(struct state))
        return KEEP;
    *(struct state *)record = *(const struct state *)argument;
    return SAVE;
}
