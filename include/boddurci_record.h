/* Declarations for a program in C that runs on one record. docs/PROGRAMS.md says how to write one, under "From C".
 *
 *     #include "boddurci_record.h"
 *
 *     uint64_t program(void *record, uint64_t record_length, const void *argument, uint64_t argument_length)
 *     {
 *         uint64_t *count = record;
 *         (void)argument, (void)argument_length;
 *         if (record_length < sizeof *count)
 *             return BODDURCI_TOO_SHORT;
 *         *count += 1;
 *         return SAVE;
 *     }
 *
 * `tools/bpfcc counter.c` makes its image, counter.bin. The same file compiles for the host: a test includes counter.c, sets
 * boddurci_host, calls program, and checks the record and boddurci_host.word. The test needs neither a library nor another header. */
#ifndef BODDURCI_RECORD_H
#define BODDURCI_RECORD_H

#if defined __bpf__ && __STDC_HOSTED__
#error "for BPF compile with -ffreestanding, as tools/bpfcc does"
#endif
#include <stdint.h>
#ifndef __bpf__
#include <string.h>
#endif

/* Unrolls the next loop, which may end early. `turns` is a literal number, the greatest number of iterations. */
#ifdef __clang__
#define UNROLL(turns) BODDURCI_PRAGMA(unroll(turns))
#define BODDURCI_PRAGMA(words) _Pragma(#words)
#else
#define UNROLL(turns)
#endif

/* The result of a program, which says what happens to the record. Any other number changes nothing, like KEEP, and may have a separate
 * meaning: the stock programs return BODDURCI_TOO_SHORT if the record or the argument is too short. */
enum {
    KEEP = 0,              /* the record is unchanged, even if the program wrote to it; a new record is not stored */
    SAVE = 1,              /* the record is stored as the program left it */
    DELETE = 2,            /* the pair is deleted; a new record is not stored */
    BODDURCI_TOO_SHORT = 4 /* the record is unchanged, as by KEEP */
};

/* The program. The record has 0 to 8,008 bytes, which the program may write; those of a new record are zeros. The argument has 0 to 1,024
 * bytes, which the program may not write. Numbers have the lowest byte first. Test the lengths before you read or write. */
uint64_t program(void *record, uint64_t record_length, const void *argument, uint64_t argument_length);

/* Inlined code gets no line numbers, so a refusal names the line of the call. */
#ifdef __clang__
#define BODDURCI_HELPER static inline __attribute__((always_inline, nodebug))
#else
#define BODDURCI_HELPER static inline __attribute__((always_inline))
#endif

#ifdef __bpf__

/* Sets the reply word, which the caller gets together with the program's result. If a program calls this several times, the last call
 * counts. Without a call the word is 0. */
BODDURCI_HELPER void boddurci_reply(uint64_t word)
{
    ((uint64_t(*)(uint64_t))1)(word);
}

/* Returns the time that the caller passed, in the caller's unit. */
BODDURCI_HELPER uint64_t boddurci_now(void)
{
    return ((uint64_t(*)(void))2)();
}

/* Returns 1 if the key exists, and 0 if the record is that of a new pair, all zeros. */
BODDURCI_HELPER uint64_t boddurci_present(void)
{
    return ((uint64_t(*)(void))3)();
}

/* Returns the number of the session that runs the program. */
BODDURCI_HELPER uint64_t boddurci_who(void)
{
    return ((uint64_t(*)(void))4)();
}

/* Copies at most 1,024 bytes, as memmove does. The target is the record or a local variable; the source may also be the argument. The
 * verifier must be able to see that source and target have `count` bytes, so a constant is best. */
BODDURCI_HELPER void boddurci_copy(void *to, const void *from, uint64_t count)
{
    ((uint64_t(*)(void *, const void *, uint64_t))5)(to, from, count);
}

#else

/* On the host: the results of the helpers, and the word that boddurci_reply sets. A test sets the word to 0 before it calls program. */
struct boddurci_host {
    uint64_t now, present, who, word;
};
__attribute__((weak)) struct boddurci_host boddurci_host;

BODDURCI_HELPER void boddurci_reply(uint64_t word)
{
    boddurci_host.word = word;
}

BODDURCI_HELPER uint64_t boddurci_now(void)
{
    return boddurci_host.now;
}

BODDURCI_HELPER uint64_t boddurci_present(void)
{
    return boddurci_host.present;
}

BODDURCI_HELPER uint64_t boddurci_who(void)
{
    return boddurci_host.who;
}

BODDURCI_HELPER void boddurci_copy(void *to, const void *from, uint64_t count)
{
    memmove(to, from, count);
}

#endif
#endif
