/* accepted */
#include "boddurci_record.h"

enum { ADD, SUBTRACT, GREATEST, LEAST, OR, AND, XOR, SET };

struct request {
    uint32_t operation, unused;
    uint64_t number;
};

uint64_t program(void *record, uint64_t record_length, const void *argument, uint64_t argument_length)
{
    uint64_t *number = record;
    const struct request *request = argument;
    if (record_length < 8 || argument_length < sizeof *request)
        return KEEP;
    uint64_t a = *number, b = request->number;
    switch (request->operation) {
    case ADD: a += b; break;
    case SUBTRACT: a -= b; break;
    case GREATEST: a = a > b ? a : b; break;
    case LEAST: a = a < b ? a : b; break;
    case OR: a |= b; break;
    case AND: a &= b; break;
    case XOR: a ^= b; break;
    case SET: a = b; break;
    default: return KEEP;
    }
    *number = a;
    boddurci_reply(a);
    return SAVE;
}
