// A machine of states that takes a text of tokens, by `switch` over an enum.
#include "bpf.h"

enum state { START, NUMBER, WORD, SPACE, BAD };
enum { KINDS = 5 };

const char input[48] = "12 apples and 345 pears_ or 6x7 ? plums 89";
enum state states[48];
unsigned short counts[KINDS];
long value, total;

static enum state next_of(enum state s, char c) {
    switch (s) {
    case BAD:
        if (c != ' ')
            return BAD;
        return SPACE;
    case START:
    case SPACE:
        if (c >= '0' && c <= '9')
            return NUMBER;
        if ((c >= 'a' && c <= 'z') || c == '_')
            return WORD;
        return c == ' ' ? SPACE : BAD;
    case NUMBER:
        return c >= '0' && c <= '9' ? NUMBER : c == ' ' ? SPACE : BAD;
    case WORD:
        return (c >= 'a' && c <= 'z') || c == '_' ? WORD : c == ' ' ? SPACE : BAD;
    }
    return BAD;
}

static long feed(__u32 i, void *ctx) {
    enum state *s = ctx;
    char c = input[i];
    if (!c)
        return 1;
    *s = next_of(*s, c);
    states[i] = *s;
    counts[*s]++;
    if (*s == NUMBER)
        value = value * 10 + (c - '0');
    if (*s == SPACE) {
        total += value;
        value = 0;
    }
    return 0;
}

SEC("xdp") long state_machine(__u64 argument) {
    enum state s = START;
    long taken = bpf_loop(sizeof(input), feed, &s, 0);
    total += value;
    return taken * 1000 + total;
}
