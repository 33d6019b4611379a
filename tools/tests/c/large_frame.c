// Local variables that a frame of 512 bytes has no room for.
#include <linux/bpf.h>
#include <bpf/bpf_helpers.h>

__u32 ways, longest;

static __u32 count_ways(__u32 amount) {
    const __u32 coins[] = {1, 2, 5, 10, 20, 50};
    __u32 table[101] = {1};
    for (int c = 0; c < 6; c++)
        for (__u32 i = coins[c]; i <= 100; i++)
            table[i] += table[i - coins[c]];
    return table[amount % 101];
}

SEC("xdp") int large_frame(long x) {
    __u64 seen[80];
    __u16 runs[80];
    for (int i = 0; i < 80; i++) {
        seen[i] = (__u64)(x + i) * (x + i) % 1009;
        runs[i] = i && seen[i] > seen[i - 1] ? runs[i - 1] + 1 : 1;
    }
    for (int i = 0; i < 80; i++)
        if (runs[i] > longest)
            longest = runs[i];
    ways = count_ways(x);
    return ways + longest;
}
