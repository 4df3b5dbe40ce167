/* A document of 120 bytes with a version: to replace a document, name its present version; a new document has version 0.
 * SAVE: the document is replaced; the word is its new version. KEEP: the document has another version; the word is that version.
 * BODDURCI_TOO_SHORT: a length is too short; the word is 0. */
#include "boddurci_record.h"

struct document {
    uint64_t version;
    uint8_t text[120];
};

uint64_t program(void *record, uint64_t record_length, const void *argument, uint64_t argument_length)
{
    struct document *kept = record;
    const struct document *next = argument;
    if (record_length < sizeof *kept || argument_length < sizeof *next)
        return BODDURCI_TOO_SHORT;
    uint64_t version = kept->version;
    if (version != next->version) {
        boddurci_reply(version);
        return KEEP;
    }
    boddurci_copy(kept, next, sizeof *kept);
    kept->version = version + 1;
    boddurci_reply(version + 1);
    return SAVE;
}
