/* The pairs of benches/one.c and benches/saves.c, and the keys of benches/durable.c, shared.c and sizes.c: a key for each
 * number, and a value of one repeated byte. */
#include <stdint.h>
#include <string.h>

enum { KEY_BYTES = 16, VALUE_BYTES = 100 };

static char key[KEY_BYTES], value[VALUE_BYTES];

/* A number of 64 bits without a pattern: splitmix64. */
static uint64_t mixed(uint64_t number)
{
    number += 0x9E3779B97F4A7C15u;
    number = (number ^ number >> 30) * 0xBF58476D1CE4E5B9u;
    number = (number ^ number >> 27) * 0x94D049BB133111EBu;
    return number ^ number >> 31;
}

static void make_key(char *bytes, unsigned i)
{
    for (unsigned half = 0; half < 2; half++) {
        uint64_t number = mixed(2 * (uint64_t)i + half);
        for (unsigned byte = 0; byte < 8; byte++)
            bytes[8 * half + byte] = (char)(number >> 8 * byte);
    }
}

static void make(unsigned i, char with)
{
    make_key(key, i);
    memset(value, with, sizeof value);
}
