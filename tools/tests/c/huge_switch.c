// A machine with a stack and twenty instructions, which runs a program of bytes.
#include <linux/bpf.h>
#include <bpf/bpf_helpers.h>

enum op { NOP, PUSH, ADD, SUB, MUL, DIV, MOD, AND, OR, XOR, SHL, SHR, NEG, DUP, SWAP, DROP, JMP, JZ, LOAD, STORE, HALT };

static const __u8 code[] = {
    PUSH, 10, STORE, 0, PUSH, 1, STORE, 1,              // n = 10, f = 1
    LOAD, 0, JZ, 26,                                    // while n
    LOAD, 1, LOAD, 0, MUL, STORE, 1, LOAD, 0, PUSH, 1, SUB, STORE, 0, // skipped by size
    JMP, 8, HALT,
};

struct machine {
    __s64 stack[16];
    __u32 depth;
    __u32 pc;
    __s64 memory[4];
    __u8 failed;
};

struct machine m;
__u32 executed[HALT + 1];

static __s64 pop(struct machine *m)
{
    if (m->depth == 0) {
        m->failed = 1;
        return 0;
    }
    return m->stack[--m->depth & 15];
}

static void push(struct machine *m, __s64 value)
{
    if (m->depth >= 16) {
        m->failed = 1;
        return;
    }
    m->stack[m->depth++] = value;
}

static __u8 fetch(struct machine *m)
{
    if (m->pc >= sizeof(code)) {
        m->failed = 1;
        return HALT;
    }
    return code[m->pc++];
}

static long step(__u32 i, void *ctx)
{
    struct machine *m = ctx;
    __u8 op = fetch(m);
    __s64 a, b;

    if (m->failed || op > HALT)
        return 1;
    executed[op]++;
    switch (op) {
    case NOP: break;
    case PUSH: push(m, (__s8)fetch(m)); break;
    case ADD: b = pop(m); a = pop(m); push(m, a + b); break;
    case SUB: b = pop(m); a = pop(m); push(m, a - b); break;
    case MUL: b = pop(m); a = pop(m); push(m, a * b); break;
    case DIV: b = pop(m); a = pop(m); push(m, b ? (__u64)a / (__u64)b : 0); break;
    case MOD: b = pop(m); a = pop(m); push(m, b ? (__u64)a % (__u64)b : 0); break;
    case AND: b = pop(m); a = pop(m); push(m, a & b); break;
    case OR: b = pop(m); a = pop(m); push(m, a | b); break;
    case XOR: b = pop(m); a = pop(m); push(m, a ^ b); break;
    case SHL: b = pop(m); a = pop(m); push(m, (__u64)a << (b & 63)); break;
    case SHR: b = pop(m); a = pop(m); push(m, a >> (b & 63)); break;
    case NEG: push(m, -pop(m)); break;
    case DUP: a = pop(m); push(m, a); push(m, a); break;
    case SWAP: b = pop(m); a = pop(m); push(m, b); push(m, a); break;
    case DROP: pop(m); break;
    case JMP: m->pc = fetch(m); break;
    case JZ: {
        __u8 to = fetch(m);
        if (!pop(m))
            m->pc = to;
        break;
    }
    case LOAD: push(m, m->memory[fetch(m) & 3]); break;
    case STORE: m->memory[fetch(m) & 3] = pop(m); break;
    case HALT: return 1;
    }
    return m->failed;
}

SEC("xdp")
long machine(__u64 arg)
{
    m.memory[2] = arg;
    long steps = bpf_loop(500, step, &m, 0);
    return m.memory[1] * 1000 + steps;
}
