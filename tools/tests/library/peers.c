/*
 * What a load and a run take, by the library and by its peers, in rounds that go through all of them:
 *
 *     cc -O2 tools/tests/library/peers.c -I FOLDER FOLDER/libbpfspec.a $(pkg-config --cflags libdpdk) -lrte_bpf -lrte_eal \
 *         -o peers && ./peers ./bpfspec
 *
 * Peers are DPDK's interpreter and compiler (rte_bpf), the kernel's compiler, which wants root, and a process of the
 * program for each run. It prints nanoseconds each, the least and the median of 21 rounds. With a number and a count it
 * does one of these as often, for callgrind: ./peers 3 1000
 */
#define _GNU_SOURCE
#include "timed.h"
#include <fcntl.h>
#include <linux/bpf.h>
#include <rte_bpf.h>
#include <spawn.h>
#include <sys/syscall.h>
#include <sys/wait.h>
#include <unistd.h>

enum { ROUNDS = 21, BATCH = 1000, ELEMENTS = 16, ARGUMENT = 41, MOST = 32 };
enum { BY_LIBRARY, BY_DPDK, BY_KERNEL };

extern char **environ;
static const char *bpfspec; /* the program */

/* Opcodes: of a register and a number, and with _R of two registers. */
enum { ADD = 0x07, ADD_R = 0x0f, MUL = 0x27, OR = 0x47, AND = 0x57, LSH = 0x67, RSH = 0x77, XOR = 0xa7, MOV = 0xb7,
       MOV_R = 0xbf, ATOMIC = 0xdb, EXIT = 0x95, WIDE = 0x18 };

struct code {
    struct bpf_insn insns[MOST];
    size_t count;
};

/* Appends an instruction of a register and a number, or of two registers. */
static void append(struct code *code, uint8_t opcode, unsigned to, unsigned from, uint64_t number)
{
    code->insns[code->count++] =
        (struct bpf_insn){.code = opcode, .dst_reg = to & 15, .src_reg = from & 15, .imm = (int32_t)number};
}

/* The operations that `twenty` has beside those of `ten`. */
static void append_more(struct code *code)
{
    append(code, MUL, 6, 0, 7);
    append(code, XOR, 6, 0, 90);
    append(code, RSH, 6, 0, 3);
    append(code, ADD_R, 6, 1, 0);
    append(code, MUL, 6, 0, 5);
    append(code, XOR, 6, 0, 33);
    append(code, RSH, 6, 0, 2);
    append(code, ADD_R, 6, 1, 0);
    append(code, OR, 6, 0, 1);
    append(code, ADD, 6, 0, 9);
}

/* The instructions of `ten`, or of `twenty`, for one of the machines; `map` is what stands for map 0 there. */
static struct code coded(int machine, uint64_t map, bool is_twenty)
{
    static const uint8_t kinds[] = {[BY_LIBRARY] = 6, [BY_DPDK] = 0, [BY_KERNEL] = BPF_PSEUDO_MAP_VALUE};
    struct code code = {.count = 0};

    if (machine == BY_KERNEL) /* its R1 is no number */
        append(&code, MOV, 1, 0, ARGUMENT);
    append(&code, MOV_R, 6, 1, 0);
    if (is_twenty)
        append_more(&code);
    append(&code, AND, 6, 0, 15);
    append(&code, LSH, 6, 0, 3);
    append(&code, WIDE, 2, kinds[machine], map);
    append(&code, 0, 0, 0, map >> 32);
    append(&code, ADD_R, 2, 6, 0);
    append(&code, MOV, 3, 0, 1);
    append(&code, ATOMIC, 2, 3, 0);
    append(&code, MOV_R, 0, 1, 0);
    append(&code, ADD, 0, 0, 1);
    append(&code, EXIT, 0, 0, 0);
    return code;
}

/* The library. */

static struct bpfspec_machine machine;

static int load_bytes(struct bpfspec_machine *loaded, const struct code *code)
{
    static const uint32_t sizes[] = {ELEMENTS};
    struct bpfspec_refusal refusal;

    return bpfspec_load_insns(loaded, sizes, 1, (const unsigned char *)code->insns, 8 * code->count, &refusal);
}

static void library_loads_text(int times)
{
    struct bpfspec_refusal refusal;

    while (times-- > 0) {
        struct bpfspec_machine loaded = {0};
        EXPECT(load(&loaded, twenty, &refusal) == BPFSPEC_DONE);
        bpfspec_free(&loaded);
    }
}

static void library_loads_bytes(int times)
{
    const struct code code = coded(BY_LIBRARY, 0, true);

    while (times-- > 0) {
        struct bpfspec_machine loaded = {0};
        EXPECT(load_bytes(&loaded, &code) == BPFSPEC_DONE);
        bpfspec_free(&loaded);
    }
}

static void library_runs(int times)
{
    uint64_t answer;

    while (times-- > 0)
        EXPECT(bpfspec_run(&machine, ARGUMENT, &answer) == BPFSPEC_DONE && answer == ARGUMENT + 1);
}

static void library_runs_each(int times)
{
    static uint64_t arguments[BATCH], answers[BATCH];

    for (; times > 0; times -= BATCH)
        EXPECT(bpfspec_run_each(&machine, arguments, BATCH, answers, BATCH) == BPFSPEC_DONE && answers[0] == 1);
}

/* DPDK. */

static uint64_t elements[ELEMENTS];
static struct rte_bpf *dpdk;
static struct rte_bpf_jit dpdk_code;

static struct rte_bpf *dpdk_loaded(bool is_twenty)
{
    const struct code code = coded(BY_DPDK, (uintptr_t)elements, is_twenty);
    const struct rte_bpf_xsym map = {
        .name = "map", .type = RTE_BPF_XTYPE_VAR,
        .var = {.val = elements, .desc = {.type = RTE_BPF_ARG_PTR, .size = sizeof elements}}};
    const struct rte_bpf_prm prm = {
        .ins = (const struct ebpf_insn *)code.insns, .nb_ins = (uint32_t)code.count, .xsym = &map, .nb_xsym = 1,
        .prog_arg = {.type = RTE_BPF_ARG_RAW, .size = 8}};
    struct rte_bpf *loaded = rte_bpf_load(&prm);

    EXPECT(loaded != NULL);
    return loaded;
}

static void dpdk_loads(int times)
{
    while (times-- > 0)
        rte_bpf_destroy(dpdk_loaded(true));
}

static void dpdk_interprets(int times)
{
    while (times-- > 0)
        EXPECT(rte_bpf_exec(dpdk, (void *)(uintptr_t)ARGUMENT) == ARGUMENT + 1);
}

static void dpdk_runs(int times)
{
    while (times-- > 0)
        EXPECT(dpdk_code.func((void *)(uintptr_t)ARGUMENT) == ARGUMENT + 1);
}

/* The kernel. */

static int kernel_map = -1, kernel_program = -1, kernel_empty = -1;
static double kernel_duration; /* of a run, as the kernel tells it, in nanoseconds */

static int bpf(int command, union bpf_attr *attr)
{
    return (int)syscall(SYS_bpf, command, attr, sizeof *attr);
}

static int kernel_loaded(struct code code)
{
    union bpf_attr attr = {.prog_type = BPF_PROG_TYPE_XDP, .insn_cnt = (uint32_t)code.count,
                           .insns = (uintptr_t)code.insns, .license = (uintptr_t)"GPL"};

    return bpf(BPF_PROG_LOAD, &attr);
}

static void kernel_loads(int times)
{
    const struct code code = coded(BY_KERNEL, (uint32_t)kernel_map, true);

    while (times-- > 0) {
        int loaded = kernel_loaded(code);
        EXPECT(loaded >= 0);
        close(loaded);
    }
}

/* Runs a program as often by one call, which takes milliseconds besides. */
static void kernel_repeats(int program, int times)
{
    static unsigned char packet[64];
    union bpf_attr attr = {.test = {.prog_fd = (uint32_t)program, .data_in = (uintptr_t)packet,
                                    .data_size_in = sizeof packet, .repeat = (uint32_t)times}};

    EXPECT(bpf(BPF_PROG_TEST_RUN, &attr) == 0 && attr.test.retval == ARGUMENT + 1);
    kernel_duration = attr.test.duration;
}

static void kernel_runs(int times)
{
    kernel_repeats(kernel_program, times);
}

static void kernel_runs_empty(int times)
{
    kernel_repeats(kernel_empty, times);
}

static void kernel_calls(int times)
{
    while (times-- > 0)
        kernel_repeats(kernel_program, 1);
}

/* A process. */

static void processes(int times)
{
    char input[] = "/tmp/peers.XXXXXX", argument[8];
    int file = mkstemp(input);
    char *words[] = {(char *)bpfspec, "run", "--arg", argument, NULL};
    posix_spawn_file_actions_t actions;

    EXPECT(file >= 0 && write(file, ten, strlen(ten)) == (ssize_t)strlen(ten));
    close(file);
    snprintf(argument, sizeof argument, "%d", ARGUMENT);
    posix_spawn_file_actions_init(&actions);
    posix_spawn_file_actions_addopen(&actions, 0, input, O_RDONLY, 0);
    posix_spawn_file_actions_addopen(&actions, 1, "/dev/null", O_WRONLY, 0);
    while (times-- > 0) {
        pid_t child;
        int status;
        EXPECT(posix_spawn(&child, bpfspec, &actions, NULL, words, environ) == 0);
        EXPECT(waitpid(child, &status, 0) == child && status == 0);
    }
    posix_spawn_file_actions_destroy(&actions);
    unlink(input);
}

static const struct {
    const char *name;
    void (*repeat)(int times);
    int times;
} subjects[] = {
    {"load and free of 20: bpfspec_load", library_loads_text, 200},
    {"load and free of 20: bpfspec_load_insns", library_loads_bytes, 200},
    {"load and free of 20: DPDK, compiled", dpdk_loads, 200},
    {"load and free of 20: the kernel, compiled", kernel_loads, 20},
    {"run of 10: bpfspec_run", library_runs, 100000},
    {"run of 10: bpfspec_run_each", library_runs_each, 100000},
    {"run of 10: DPDK's interpreter", dpdk_interprets, 100000},
    {"run of 10: DPDK's compiler", dpdk_runs, 100000},
    {"run of 10: the kernel's compiler", kernel_runs, 100000},
    {"the same of 2, which do nothing", kernel_runs_empty, 100000},
    {"run of 10: the kernel's compiler, a call for each", kernel_calls, 1000},
    {"run of 10: a process of the program", processes, 5},
};
enum { SUBJECTS = sizeof subjects / sizeof subjects[0] };

static bool is_there(void (*repeat)(int times))
{
    if (repeat == processes)
        return bpfspec != NULL;
    if (repeat == dpdk_runs)
        return dpdk_code.func != NULL;
    if (repeat == kernel_loads || repeat == kernel_runs || repeat == kernel_runs_empty || repeat == kernel_calls)
        return kernel_program >= 0;
    return true;
}

/* What one of a subject took, in nanoseconds. */
static double timed(int subject)
{
    void (*const repeat)(int times) = subjects[subject].repeat;
    const double start = now();

    repeat(subjects[subject].times);
    if (repeat == kernel_runs || repeat == kernel_runs_empty)
        return kernel_duration;
    return (now() - start) / subjects[subject].times;
}

static int in_order(const void *one, const void *other)
{
    const double first = *(const double *)one, second = *(const double *)other;

    return (first > second) - (first < second);
}

static void prepare(void)
{
    const struct code code = coded(BY_LIBRARY, 0, false);
    struct code empty = {.count = 0};
    union bpf_attr attr = {.map_type = BPF_MAP_TYPE_ARRAY, .key_size = 4, .value_size = sizeof elements,
                           .max_entries = 1};

    EXPECT(load_bytes(&machine, &code) == BPFSPEC_DONE);
    dpdk = dpdk_loaded(false);
    rte_bpf_get_jit(dpdk, &dpdk_code);
    kernel_map = bpf(BPF_MAP_CREATE, &attr);
    append(&empty, MOV, 0, 0, ARGUMENT + 1);
    append(&empty, EXIT, 0, 0, 0);
    if (kernel_map >= 0) {
        kernel_program = kernel_loaded(coded(BY_KERNEL, (uint32_t)kernel_map, false));
        kernel_empty = kernel_loaded(empty);
    }
    if (kernel_program < 0)
        perror("peers: the kernel takes no program");
}

int main(int count, char **words)
{
    static double took[SUBJECTS][ROUNDS];

    prepare();
    if (count == 3) {
        subjects[atoi(words[1])].repeat(atoi(words[2]));
        return 0;
    }
    bpfspec = count == 2 ? words[1] : NULL;
    for (int round = 0; round < ROUNDS; round++)
        for (int i = 0; i < SUBJECTS; i++)
            if (is_there(subjects[i].repeat))
                took[i][round] = timed(i);
    for (int i = 0; i < SUBJECTS; i++) {
        qsort(took[i], ROUNDS, sizeof(double), in_order);
        if (is_there(subjects[i].repeat))
            printf("%-52s %10.1f (%.1f)\n", subjects[i].name, took[i][0], took[i][ROUNDS / 2]);
    }
    return 0;
}
