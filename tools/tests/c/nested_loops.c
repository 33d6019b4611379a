// Loops in loops by contexts that hold addresses of other contexts.
#include <linux/bpf.h>
#include <bpf/bpf_helpers.h>

#define N 12

struct outer {
    __u64 total;
    __u32 row;
    __u32 limit;
};

struct inner {
    struct outer *outer;
    __u64 sum;
    __u32 least, greatest;
};

__u32 table[N][N];
__u64 row_sums[N];

static long column(__u32 x, void *ctx)
{
    struct inner *in = ctx;
    __u32 y = in->outer->row;

    if (x >= N || y >= N)
        return 1;
    __u32 v = table[y][x];
    in->sum += v;
    if (v < in->least)
        in->least = v;
    if (v > in->greatest)
        in->greatest = v;
    return v > in->outer->limit;
}

static long row(__u32 y, void *ctx)
{
    struct outer *out = ctx;
    struct inner in = { .outer = out, .least = ~0u };

    out->row = y;
    bpf_loop(N, column, &in, 0);
    if (y < N)
        row_sums[y] = in.sum + in.greatest - in.least;
    out->total += in.sum;
    return 0;
}

static long fill(__u32 i, void *ctx)
{
    if (i < N * N)
        table[i / N][i % N] = (i * i * 31 + *(__u64 *)ctx) % 1000;
    return 0;
}

SEC("xdp")
long nested(__u64 arg)
{
    struct outer out = { .limit = 950 };

    bpf_loop(N * N, fill, &arg, 0);
    bpf_loop(N, row, &out, 0);
    return out.total;
}
