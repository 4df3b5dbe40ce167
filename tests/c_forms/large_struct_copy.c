/* memcpy */
#include "boddurci_record.h"

struct state {
    uint8_t bytes[2000];
};

uint64_t program(void *record, uint64_t record_length, const void *argument, uint64_t argument_length)
{
    struct state *state = record;
    (void)argument, (void)argument_length;
    if (record_length < 2 * sizeof *state)
        return KEEP;
    state[0] = state[1]; // here
    return SAVE;
}
