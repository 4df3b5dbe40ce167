/* Runs a program in C on the host, for tests/c_programs, which passes the file of the program as SOURCE. A line of standard input has the
 * record, the argument, the time, and whether the key exists. Bytes are in hex, and . means no bytes. An answer has the code, the word and
 * the record. The record and the argument are in separate blocks of memory of exactly their lengths, so that a sanitizer finds any access
 * past their ends. */
#include SOURCE
#include <inttypes.h>
#include <stdio.h>
#include <stdlib.h>

static uint8_t *bytes_of(const char *text, uint64_t *length)
{
    *length = text[0] == '.' ? 0 : strlen(text) / 2;
    uint8_t *bytes = malloc(*length ? *length : 1);
    for (uint64_t i = 0; bytes && i < *length; i++) {
        unsigned byte = 0;
        sscanf(text + 2 * i, "%2x", &byte);
        bytes[i] = (uint8_t)byte;
    }
    return *length ? bytes : realloc(bytes, 1);
}

int main(void)
{
    static char record_text[16400], argument_text[2100];
    uint64_t now, present;
    while (scanf("%16399s %2099s %" SCNu64 " %" SCNu64, record_text, argument_text, &now, &present) == 4) {
        uint64_t record_length, argument_length;
        uint8_t *record = bytes_of(record_text, &record_length);
        uint8_t *argument = bytes_of(argument_text, &argument_length);
        boddurci_host = (struct boddurci_host){.now = now, .present = present};
        uint64_t code = program(record, record_length, argument, argument_length);
        printf("%" PRIu64 " %" PRIu64 " ", code, boddurci_host.word);
        for (uint64_t i = 0; i < record_length; i++)
            printf("%02x", record[i]);
        puts(record_length ? "" : ".");
        free(record);
        free(argument);
    }
    return 0;
}
