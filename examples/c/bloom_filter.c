/* A Bloom filter of 1,024 bits with four bits for each value. The argument is a hash of a value, 16 bytes. Its bits are at the first
 * half of the hash, and at the first half plus one, two and three times the second half.
 * SAVE: the value is new, and is added; the word is 0. KEEP: the value was probably added before; the word is 1.
 * BODDURCI_TOO_SHORT: a length is too short. */
#include "boddurci_record.h"

enum { BITS = 1024, BITS_A_VALUE = 4 };

struct hash {
    uint64_t first, second;
};

uint64_t program(void *record, uint64_t record_length, const void *argument, uint64_t argument_length)
{
    uint64_t *words = record;
    const struct hash *hash = argument;
    if (record_length < BITS / 8 || argument_length < sizeof *hash)
        return BODDURCI_TOO_SHORT;
    uint64_t there = 1;
    for (uint64_t i = 0; i < BITS_A_VALUE; i++) {
        uint64_t bit = (hash->first + i * hash->second) & (BITS - 1);
        there &= words[bit >> 6] >> (bit & 63);
        words[bit >> 6] |= 1ull << (bit & 63);
    }
    boddurci_reply(there);
    return there ? KEEP : SAVE;
}
