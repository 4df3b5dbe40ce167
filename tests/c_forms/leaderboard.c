/* accepted */
#include "boddurci_record.h"

/* Eight scores, the greatest first: a new one is inserted in order, and the last is dropped. */
struct score {
    uint64_t player, points;
};

uint64_t program(void *record, uint64_t record_length, const void *argument, uint64_t argument_length)
{
    struct score *scores = record;
    const struct score *score = argument;
    if (record_length < 8 * sizeof *scores || argument_length < sizeof *score)
        return KEEP;
    struct score carried = *score;
    for (int i = 0; i < 8; i++) {
        if (carried.points > scores[i].points) {
            struct score next = scores[i];
            scores[i] = carried;
            carried = next;
        }
    }
    return SAVE;
}
