/* A sequence: only newer messages replace a message, in any order of arrival; messages are numbered from 1.
 * SAVE: the message is newer, and is stored. KEEP: the message is old. The word is the number of the message that is stored after the run.
 * BODDURCI_TOO_SHORT: a length is too short; the word is 0. */
#include "boddurci_record.h"

struct message {
    uint64_t number;
    uint8_t text[16];
};

uint64_t program(void *record, uint64_t record_length, const void *argument, uint64_t argument_length)
{
    struct message *kept = record;
    const struct message *next = argument;
    if (record_length < sizeof *kept || argument_length < sizeof *next)
        return BODDURCI_TOO_SHORT;
    if (next->number <= kept->number) {
        boddurci_reply(kept->number);
        return KEEP;
    }
    boddurci_copy(kept, next, sizeof *kept);
    boddurci_reply(kept->number);
    return SAVE;
}
