/* accepted or PointerRange by clang 14 */
#include "boddurci_record.h"

/* Stores the last five numbers; the word is their median. */
struct five {
    uint64_t next, numbers[5];
};

static inline void order(uint64_t *a, uint64_t *b)
{
    uint64_t least = *a < *b ? *a : *b, greatest = *a < *b ? *b : *a;
    *a = least;
    *b = greatest;
}

uint64_t program(void *record, uint64_t record_length, const void *argument, uint64_t argument_length)
{
    struct five *five = record;
    const uint64_t *number = argument;
    if (record_length < sizeof *five || argument_length < 8)
        return KEEP;
    five->numbers[five->next % 5] = *number;
    five->next = (five->next + 1) % 5;
    uint64_t n[5];
    for (int i = 0; i < 5; i++)
        n[i] = five->numbers[i];
    order(&n[0], &n[1]);
    order(&n[3], &n[4]);
    order(&n[0], &n[3]);
    order(&n[1], &n[4]);
    order(&n[1], &n[2]);
    order(&n[2], &n[3]);
    order(&n[1], &n[2]);
    boddurci_reply(n[2]);
    return SAVE;
}
