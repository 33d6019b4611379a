// Weighted round robin that is smooth, as of nginx, with servers that fail for a while.
#include <linux/bpf.h>
#include <bpf/bpf_helpers.h>

typedef struct {
    __s32 weight;
    __s32 effective;
    __s32 current;
    __u16 fails;
    __u8 down;
} server_t;

static server_t servers[4] = { { 5, 5 }, { 1, 1 }, { 2, 2 }, { 3, 3 } };
__u8 choices[64];
__u32 picks[4];

static int pick(void)
{
    int best = -1, total = 0;
    for (int s = 0; s < 4; s++) {
        if (servers[s].down)
            continue;
        servers[s].current += servers[s].effective;
        total += servers[s].effective;
        if (servers[s].effective < servers[s].weight)
            servers[s].effective++;
        if (best == -1 || servers[s].current > servers[best].current)
            best = s;
    }
    if (best >= 0)
        servers[best].current -= total;
    return best;
}

static long request(__u32 i, void *ctx)
{
    int s = pick();
    if (s < 0 || i >= 64)
        return 1;
    choices[i] = s;
    picks[s]++;
    if ((i ^ s) % 5 == 4) {
        servers[s].fails++;
        servers[s].effective -= servers[s].weight / 2u;
    }
    servers[2].down = i > 20 && i < 30;
    return 0;
}

SEC("xdp")
int weighted_robin(void *ctx)
{
    bpf_loop(64, request, NULL, 0);
    return picks[0] | picks[1] << 8 | picks[2] << 16 | picks[3] << 24;
}
char LICENSE[] SEC("license") = "GPL";
