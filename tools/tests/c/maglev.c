// Maglev's table of backends, by permutations of offset and skip.
#include <linux/bpf.h>
#include <bpf/bpf_helpers.h>

#define SIZE 67
#define BACKENDS 5

__s8 table[SIZE];
__u32 next[BACKENDS];
__u32 offsets[BACKENDS], skips[BACKENDS];
__u32 shares[BACKENDS];
__u32 filled;

static long take(__u32 round, void *ctx)
{
    for (int b = 0; b < BACKENDS; b++) {
        __u32 at = (offsets[b] + next[b] * skips[b]) % SIZE;
        while (table[at] >= 0) {
            next[b]++;
            at = (offsets[b] + next[b] * skips[b]) % SIZE;
        }
        table[at] = b;
        next[b]++;
        shares[b]++;
        if (++filled == SIZE)
            return 1;
    }
    return 0;
}

SEC("xdp")
int maglev(void *ctx)
{
    __u32 seed = (__u64)ctx;
    for (int k = 0; k < SIZE; k++)
        table[k] = -1;
    for (int b = 0; b < BACKENDS; b++) {
        __u32 h = (b + 1 + seed) * 2654435761u;
        offsets[b] = (h >> 16) % SIZE;
        skips[b] = h % (SIZE - 1) + 1;
    }
    bpf_loop(SIZE, take, NULL, 0);
    return shares[0] * 100 + shares[1];
}
char LICENSE[] SEC("license") = "GPL";
