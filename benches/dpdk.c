/* Measures runs of programs by DPDK's interpreter. Each line of standard input is ROUNDS RECORD ARGUMENT IMAGE, the last three in hex, with
 * "." for no bytes. The answer is the nanoseconds per run. Each run begins with a fresh copy of the record, as in `MACHINE image` of
 * crates/test_machine.
 *
 * This program calls the interpreter without DPDK's loader, which refuses programs that our verifier accepts. The interpreter sets only R1,
 * so three instructions before the program set R2 to R4. The five helpers are functions of the host. The layout of a loaded program is that
 * of DPDK 22.11.
 *
 * build: cc -O2 dpdk.c -o dpdk $(pkg-config --cflags --libs libdpdk)      (Debian: libdpdk-dev, pkg-config) */
#include <rte_bpf.h>
#include <stdio.h>
#include <stdlib.h>
#include <string.h>
#include <time.h>

/* The first fields of the loader's result. The interpreter reads only the instructions and the helpers, which are among these fields. */
struct loaded {
    struct rte_bpf_prm parameters;
    char more[256];
};

static uint64_t reply_word;

static uint64_t reply(uint64_t given, uint64_t b, uint64_t c, uint64_t d, uint64_t e)
{
    (void)b, (void)c, (void)d, (void)e;
    reply_word = given;
    return 0;
}

static uint64_t now(uint64_t a, uint64_t b, uint64_t c, uint64_t d, uint64_t e)
{
    (void)a, (void)b, (void)c, (void)d, (void)e;
    return 1700000000;
}

static uint64_t present(uint64_t a, uint64_t b, uint64_t c, uint64_t d, uint64_t e)
{
    (void)a, (void)b, (void)c, (void)d, (void)e;
    return 1;
}

static uint64_t who(uint64_t a, uint64_t b, uint64_t c, uint64_t d, uint64_t e)
{
    (void)a, (void)b, (void)c, (void)d, (void)e;
    return 3;
}

static uint64_t copy(uint64_t to, uint64_t from, uint64_t count, uint64_t d, uint64_t e)
{
    (void)d, (void)e;
    memmove((void *)(uintptr_t)to, (const void *)(uintptr_t)from, count);
    return count;
}

static struct rte_bpf_xsym helpers[6];
static unsigned char record[8192], bytes[8192], argument[1024], image[4096 * 8];
static struct ebpf_insn code[4096 + 4];
static char line[160000];

/* Decodes a word in hex, and returns the number of its bytes. */
static size_t read_hex(const char *word, unsigned char *to)
{
    size_t count = word && *word != '.' ? strlen(word) / 2 : 0;
    for (size_t i = 0; i < count; i++)
        sscanf(word + 2 * i, "%2hhx", to + i);
    return count;
}

static double seconds(void)
{
    struct timespec at;
    clock_gettime(CLOCK_MONOTONIC, &at);
    return at.tv_sec + at.tv_nsec * 1e-9;
}

int main(void)
{
    uint64_t (*functions[])(uint64_t, uint64_t, uint64_t, uint64_t, uint64_t) = {reply, now, present, who, copy};
    for (int i = 0; i < 5; i++) {
        helpers[i + 1].name = "helper";
        helpers[i + 1].type = RTE_BPF_XTYPE_FUNC;
        helpers[i + 1].func.val = functions[i];
        helpers[i + 1].func.nb_args = 5;
    }
    while (fgets(line, sizeof line, stdin)) {
        char *word = strtok(line, " \n");
        long rounds = word ? atol(word) : 0;
        size_t length = read_hex(strtok(NULL, " \n"), record);
        size_t given = read_hex(strtok(NULL, " \n"), argument);
        size_t size = read_hex(strtok(NULL, " \n"), image);
        uint64_t place = (uintptr_t)argument;
        code[0] = (struct ebpf_insn){.code = 0xb7, .dst_reg = 2, .imm = (int32_t)length};
        code[1] = (struct ebpf_insn){.code = 0x18, .dst_reg = 3, .imm = (int32_t)place};
        code[2] = (struct ebpf_insn){.imm = (int32_t)(place >> 32)};
        code[3] = (struct ebpf_insn){.code = 0xb7, .dst_reg = 4, .imm = (int32_t)given};
        memcpy(code + 4, image, size);
        struct loaded loaded;
        memset(&loaded, 0, sizeof loaded);
        loaded.parameters.ins = code;
        loaded.parameters.nb_ins = (uint32_t)(size / 8 + 4);
        loaded.parameters.xsym = helpers;
        loaded.parameters.nb_xsym = 6;
        double start = seconds();
        uint64_t sum = 0;
        for (long i = 0; i < rounds; i++) {
            memcpy(bytes, record, length);
            sum += rte_bpf_exec((const struct rte_bpf *)&loaded, bytes);
        }
        double took = seconds() - start;
        printf("%.1f ns a run, sum %llu\n", rounds ? took * 1e9 / (double)rounds : 0, (unsigned long long)sum);
    }
    return 0;
}
