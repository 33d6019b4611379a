// A sparse matrix in compressed rows times a vector, and the power iteration with it.
#include <linux/bpf.h>
#include <bpf/bpf_helpers.h>

#define ROWS 8
#define ENTRIES 20

struct csr {
    __u16 start[ROWS + 1];
    __u8 column[ENTRIES];
    __s16 value[ENTRIES];
};

static const struct csr matrix = {
    .start = { 0, 2, 5, 7, 10, 12, 15, 18, 20 },
    .column = { 0, 1, 0, 1, 2, 1, 3, 2, 3, 4, 4, 5, 3, 5, 6, 5, 6, 7, 6, 7 },
    .value = { 4, -1, -1, 4, -2, 3, 7, -5, 6, 1, 2, -3, 9, 1, 1, -4, 5, 2, 3, -6 },
};

__s64 x[ROWS], y[ROWS];

struct state {
    const struct csr *m;
    __s64 *in, *out;
};

static long row(__u32 r, void *ctx)
{
    struct state *s = ctx;
    __s64 sum = 0;

    if (r >= ROWS)
        return 1;
    for (__u32 k = s->m->start[r]; k < s->m->start[r + 1]; k++)
        sum += s->m->value[k] * s->in[s->m->column[k]];
    s->out[r] = sum;
    return 0;
}

SEC("xdp")
long product(__u64 arg)
{
    struct state there = { &matrix, x, y }, back = { &matrix, y, x };

    for (int i = 0; i < ROWS; i++)
        x[i] = i + (arg & 15);
    for (int step = 0; step < 3; step++) {
        bpf_loop(ROWS, row, &there, 0);
        bpf_loop(ROWS, row, &back, 0);
    }
    return x[0] ^ x[ROWS - 1];
}
