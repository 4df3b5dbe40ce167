/* accepted */
#include "boddurci_record.h"

struct lease {
    uint8_t owner[16];
    uint64_t ends;
};

/* Compares by a loop over bytes, with an early return. */
static int same(const uint8_t *a, const uint8_t *b)
{
    for (int i = 0; i < 16; i++)
        if (a[i] != b[i])
            return 0;
    return 1;
}

uint64_t program(void *record, uint64_t record_length, const void *argument, uint64_t argument_length)
{
    struct lease *lease = record;
    if (record_length < sizeof *lease || argument_length < 16)
        return KEEP;
    if (!same(lease->owner, argument))
        return KEEP;
    return DELETE;
}
