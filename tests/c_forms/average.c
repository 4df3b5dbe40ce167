/* __muldf3 */
#include "boddurci_record.h"

uint64_t program(void *record, uint64_t record_length, const void *argument, uint64_t argument_length)
{
    double *average = record;
    const double *value = argument;
    if (record_length < 8 || argument_length < 8)
        return KEEP;
    *average = *average * 0.9 + *value * 0.1; // here
    return SAVE;
}
