// Steps from one cell of a maze to all others, by a queue.
#include <linux/bpf.h>
#include <bpf/bpf_helpers.h>

#define W 12
#define H 8

const char maze[H][W + 1] = {
    "............", ".##########.", ".#........#.", ".#.######.#.",
    ".#.#....#.#.", ".#.####.#.#.", ".#......#.#.", ".########...",
};
__u8 steps[H][W];
struct cell {
    __u8 x, y;
} queue[W * H];
__u16 head, tail;

static void visit(int x, int y, __u8 distance)
{
    if (x < 0 || x >= W || y < 0 || y >= H)
        return;
    if (maze[y][x] == '#' || steps[y][x])
        return;
    if (tail >= W * H)
        return;
    steps[y][x] = distance;
    queue[tail].x = x;
    queue[tail].y = y;
    tail++;
}

static long spread(__u32 i, void *ctx)
{
    struct cell c;
    __u8 next;
    if (head >= tail || head >= W * H)
        return 1;
    c = queue[head++];
    if (c.x >= W || c.y >= H)
        return 1;
    next = steps[c.y][c.x] + 1;
    visit(c.x - 1, c.y, next);
    visit(c.x + 1, c.y, next);
    visit(c.x, c.y - 1, next);
    visit(c.x, c.y + 1, next);
    return 0;
}

SEC("xdp")
int breadth_first(void *ctx)
{
    visit(0, 0, 1);
    bpf_loop(W * H, spread, NULL, 0);
    return steps[4][7] << 8 | tail;
}
char LICENSE[] SEC("license") = "GPL";
