// Conway's game of life on a torus of 16 by 16 bytes.
#include <linux/bpf.h>
#include <bpf/bpf_helpers.h>

#define SIDE 16

__u8 grid[2][SIDE][SIDE];
__u32 turn;

static long cell(__u32 i, void *ctx)
{
    __u32 y = i / SIDE, x = i % SIDE;
    __u8 (*now)[SIDE] = grid[turn & 1], (*next)[SIDE] = grid[(turn + 1) & 1];
    int neighbours = 0;
    for (int dy = -1; dy <= 1; dy++)
        for (int dx = -1; dx <= 1; dx++)
            if (dx || dy)
                neighbours += now[(y + dy) & (SIDE - 1)][(x + dx) & (SIDE - 1)];
    next[y][x] = neighbours == 3 || (neighbours == 2 && now[y][x]);
    return 0;
}

SEC("xdp")
int life(void *ctx)
{
    __u32 alive = 0;
    grid[0][1][2] = grid[0][2][3] = grid[0][3][1] = grid[0][3][2] = grid[0][3][3] = 1;
    for (int t = 0; t < 10; t++) {
        bpf_loop(SIDE * SIDE, cell, NULL, 0);
        turn++;
    }
    for (int y = 0; y < SIDE; y++)
        for (int x = 0; x < SIDE; x++)
            alive += grid[turn & 1][y][x];
    return alive;
}
char LICENSE[] SEC("license") = "GPL";
