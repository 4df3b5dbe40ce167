/* HyperLogLog: estimates the number of different values, by 256 registers of a byte each. The argument is a hash of 8 bytes. Its lowest
 * 8 bits select a register. The register stores the greatest number of trailing zeros of the other 56 bits, plus one.
 * SAVE: the register has grown; the word is its value. KEEP: the register has not grown. BODDURCI_TOO_SHORT: a length is too short. */
#include "boddurci_record.h"

enum { REGISTERS = 256 };

uint64_t program(void *record, uint64_t record_length, const void *argument, uint64_t argument_length)
{
    uint8_t *registers = record;
    const uint64_t *hash = argument;
    if (record_length < REGISTERS || argument_length < sizeof *hash)
        return BODDURCI_TOO_SHORT;
    uint64_t rest = *hash >> 8 | 1ull << 56;
    uint8_t rank = 1;
    /* Finds the lowest bit of the rest that is 1, in six steps. */
    if (!(rest & 0xffffffff)) {
        rest >>= 32;
        rank += 32;
    }
    if (!(rest & 0xffff)) {
        rest >>= 16;
        rank += 16;
    }
    if (!(rest & 0xff)) {
        rest >>= 8;
        rank += 8;
    }
    if (!(rest & 0xf)) {
        rest >>= 4;
        rank += 4;
    }
    if (!(rest & 3)) {
        rest >>= 2;
        rank += 2;
    }
    if (!(rest & 1))
        rank += 1;
    uint8_t *kept = &registers[*hash & (REGISTERS - 1)];
    if (rank <= *kept)
        return KEEP;
    *kept = rank;
    boddurci_reply(rank);
    return SAVE;
}
