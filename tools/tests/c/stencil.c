// Heat that spreads over a plate: a stencil of five points between two 2-D arrays.
#include <linux/bpf.h>
#include <bpf/bpf_helpers.h>

#define H 12
#define W 16

__u32 plate[2][H][W];
__u32 steps;

static long cell(__u32 i, void *ctx)
{
    __u32 from = *(__u32 *)ctx & 1;
    __u32 y = i / W, x = i % W;

    if (y >= H)
        return 1;
    if (y == 0 || y == H - 1 || x == 0 || x == W - 1) {
        plate[!from][y][x] = plate[from][y][x];
        return 0;
    }
    plate[!from][y][x] = (plate[from][y - 1][x] + plate[from][y + 1][x] + plate[from][y][x - 1] +
                          plate[from][y][x + 1] + 4 * plate[from][y][x]) / 8;
    return 0;
}

SEC("xdp")
int heat(__u64 arg)
{
    __u32 total = 0;

    for (int x = 0; x < W; x++) {
        plate[0][0][x] = 1000000;
        plate[0][H - 1][x] = 1000 * (arg % 100);
    }
    for (steps = 0; steps < 6; steps++) {
        __u32 from = steps & 1;
        bpf_loop(H * W, cell, &from, 0);
    }
    for (int y = 1; y < H - 1; y++)
        for (int x = 1; x < W - 1; x++)
            total += plate[0][y][x];
    return total;
}
