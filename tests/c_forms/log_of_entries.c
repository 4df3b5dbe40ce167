/* accepted */
#include "boddurci_record.h"

/* Entries of 16 bytes, one after the other. */
struct log {
    uint64_t used;
    uint8_t bytes[256];
};

uint64_t program(void *record, uint64_t record_length, const void *argument, uint64_t argument_length)
{
    struct log *log = record;
    if (record_length < sizeof *log || argument_length < 16)
        return KEEP;
    uint64_t used = log->used;
    if (used > sizeof log->bytes - 16)
        return KEEP;
    boddurci_copy(&log->bytes[used], argument, 16);
    log->used = used + 16;
    return SAVE;
}
