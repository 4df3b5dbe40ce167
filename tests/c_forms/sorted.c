/* accepted */
#include "boddurci_record.h"

/* Sorts eight numbers. */
uint64_t program(void *record, uint64_t record_length, const void *argument, uint64_t argument_length)
{
    uint64_t *numbers = record;
    (void)argument, (void)argument_length;
    if (record_length < 64)
        return KEEP;
    for (int i = 1; i < 8; i++)
        for (int j = i; j > 0; j--) {
            uint64_t a = numbers[j - 1], b = numbers[j];
            numbers[j - 1] = a < b ? a : b;
            numbers[j] = a < b ? b : a;
        }
    return SAVE;
}
