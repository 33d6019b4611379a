// The shortest way through a maze of characters, by a queue of places.
#include <linux/bpf.h>
#include <bpf/bpf_helpers.h>

#define ROWS 9
#define COLUMNS 16

static const char maze[ROWS][COLUMNS] = {
    "###############", "#S#     #     #", "# # ### # ### #", "#   #   #   # #", "### # ##### # #",
    "#   #     # # #", "# ####### # # #", "#           #E#", "###############",
};

struct place {
    __s8 y, x;
};

struct place queue[ROWS * COLUMNS];
__u8 steps[ROWS][COLUMNS];
int head, tail, found;

static const struct place moves[4] = { { 0, 1 }, { 1, 0 }, { 0, -1 }, { -1, 0 } };

static long visit(__u32 i, void *ctx)
{
    if (head == tail || head >= ROWS * COLUMNS)
        return 1;
    struct place at = queue[head++];
    if (at.y < 0 || at.y >= ROWS || at.x < 0 || at.x >= COLUMNS)
        return 1;
    if (maze[at.y][at.x] == 'E') {
        found = steps[at.y][at.x];
        return 1;
    }
    for (int m = 0; m < 4; m++) {
        int y = at.y + moves[m].y, x = at.x + moves[m].x;
        if (y < 0 || y >= ROWS || x < 0 || x >= COLUMNS - 1)
            continue;
        if (maze[y][x] == '#' || steps[y][x])
            continue;
        steps[y][x] = steps[at.y][at.x] + 1;
        if (tail < ROWS * COLUMNS)
            queue[tail++] = (struct place){ y, x };
    }
    return 0;
}

SEC("xdp")
int solve(__u64 arg)
{
    queue[tail].y = 1;
    queue[tail++].x = 1;
    steps[1][1] = 1 + (arg & 1);
    int rounds = bpf_loop(ROWS * COLUMNS, visit, NULL, 0);
    return found * 1000 + rounds;
}
