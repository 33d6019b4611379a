// How many ways eight queens stand on a board, by an explicit stack of masks.
#include "bpf.h"

#define N 6

typedef unsigned char u8;

struct level {
    u8 columns, left, right, open;
};
struct level levels[N + 1];
int depth;
unsigned int solutions, steps;

static long step(__u32 i, void *ctx) {
    struct level *at;
    u8 bit;
    if (depth < 0 || depth > N)
        return 1;
    steps++;
    at = &levels[depth];
    if (at->columns == (1 << N) - 1) {
        solutions++;
        depth--;
        return 0;
    }
    if (!at->open) {
        depth--;
        return 0;
    }
    bit = at->open & -at->open;
    at->open ^= bit;
    if (depth < N) {
        struct level *next = &levels[depth + 1];
        next->columns = at->columns | bit;
        next->left = (at->left | bit) << 1;
        next->right = (at->right | bit) >> 1;
        next->open = ((1 << N) - 1) & ~(next->columns | next->left | next->right);
        depth++;
    }
    return 0;
}

SEC("xdp") long queens(__u64 argument) {
    levels[0].open = (1 << N) - 1;
    bpf_loop(2000, step, 0, 0);
    return solutions * 10000L + steps;
}
