/* accepted */
#include "boddurci_record.h"

/* Takes the first free slot of eight, by a pointer. */
struct slot {
    uint64_t user, since;
};

uint64_t program(void *record, uint64_t record_length, const void *argument, uint64_t argument_length)
{
    struct slot *slots = record, *free = 0;
    const uint64_t *user = argument;
    if (record_length < 8 * sizeof *slots || argument_length < 8)
        return KEEP;
    for (int i = 0; i < 8; i++)
        if (slots[i].user == 0) {
            free = &slots[i];
            break;
        }
    if (!free)
        return KEEP;
    free->user = *user;
    free->since = boddurci_now();
    return SAVE;
}
