// A small stack machine: its program is bytes, its stack an array in a structure on main's frame.
#include "bpf.h"

typedef unsigned char u8;

enum { HALT, PUSH, ADD, SUB, MUL, DUP, SWAP, JNZ, DROP };

const u8 code[] = {PUSH, 1, PUSH, 6, /* product = 1, n = 6 */
                   DUP, JNZ, 9, DROP, HALT,
                   SWAP, PUSH, 3, ADD, SWAP, PUSH, 1, SUB, DUP, JNZ, 9, DROP, HALT};

struct machine {
    long stack[8];
    unsigned int sp, pc;
    u8 halted;
};
long answer;
unsigned int steps;

static long step(__u32 i, void *ctx) {
    struct machine *m = ctx;
    long t;
    if (m->pc >= sizeof(code) || m->sp > 7)
        return 1;
    steps++;
    switch (code[m->pc++]) {
    case HALT:
        m->halted = 1;
        return 1;
    case PUSH:
        if (m->pc >= sizeof(code))
            return 1;
        m->stack[m->sp++ & 7] = code[m->pc++];
        break;
    case ADD:
        m->sp--;
        m->stack[(m->sp - 1) & 7] += m->stack[m->sp & 7];
        break;
    case SUB:
        m->sp--;
        m->stack[(m->sp - 1) & 7] -= m->stack[m->sp & 7];
        break;
    case MUL:
        m->sp--;
        m->stack[(m->sp - 1) & 7] *= m->stack[m->sp & 7];
        break;
    case DUP:
        m->stack[m->sp & 7] = m->stack[(m->sp - 1) & 7];
        m->sp++;
        break;
    case SWAP:
        t = m->stack[(m->sp - 1) & 7];
        m->stack[(m->sp - 1) & 7] = m->stack[(m->sp - 2) & 7];
        m->stack[(m->sp - 2) & 7] = t;
        break;
    case JNZ:
        if (m->pc >= sizeof(code))
            return 1;
        t = m->stack[--m->sp & 7];
        m->pc = t ? code[m->pc] : m->pc + 1;
        break;
    case DROP:
        m->sp--;
        break;
    }
    return 0;
}

SEC("xdp") long interpreter(__u64 argument) {
    struct machine m = {};
    bpf_loop(200, step, &m, 0);
    answer = m.stack[0];
    return m.halted ? answer : -1;
}
