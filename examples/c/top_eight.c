/* The eight most frequent values (the Space-Saving algorithm): eight entries of a value, above 0, and a count.
 * A value without an entry takes the entry with the least count, and continues that count. A count is too high by at most the
 * least count.
 * SAVE: the value was counted; the word is its count. KEEP: the value is 0. BODDURCI_TOO_SHORT: a length is too short. */
#include "boddurci_record.h"

enum { ENTRIES = 8 };

struct entry {
    uint64_t value, count;
};

uint64_t program(void *record, uint64_t record_length, const void *argument, uint64_t argument_length)
{
    struct entry *entries = record;
    const uint64_t *value = argument;
    if (record_length < ENTRIES * sizeof *entries || argument_length < sizeof *value)
        return BODDURCI_TOO_SHORT;
    if (*value == 0)
        return KEEP;
    uint64_t chosen = 0, least = UINT64_MAX, found = 0;
    for (uint64_t i = 0; i < ENTRIES; i++) {
        if (entries[i].value == *value) {
            chosen = i;
            found = 1;
        } else if (!found && entries[i].count < least) {
            chosen = i;
            least = entries[i].count;
        }
    }
    struct entry *entry = &entries[chosen];
    entry->value = *value;
    entry->count += 1;
    boddurci_reply(entry->count);
    return SAVE;
}
