/* the data _license */
#include "boddurci_record.h"

/* A license, as in programs for the kernel. */
char _license[] __attribute__((section("license"))) = "GPL"; // here

uint64_t program(void *record, uint64_t record_length, const void *argument, uint64_t argument_length)
{
    (void)record, (void)record_length, (void)argument, (void)argument_length;
    return KEEP;
}
