/* OutOfRecord */
#include "boddurci_record.h"

uint64_t program(void *record, uint64_t record_length, const void *argument, uint64_t argument_length)
{
    if (argument_length > record_length)
        return KEEP;
    boddurci_copy(record, argument, argument_length); // here
    return SAVE;
}
