// The edit distance of two words, by a table of 16 bits in two dimensions.
#include <linux/bpf.h>
#include <bpf/bpf_helpers.h>

#define MAX 16

char left[MAX] = "intention";
char right[MAX] = "execution";
__u16 distance[MAX + 1][MAX + 1];

static __always_inline __u16 min3(__u16 a, __u16 b, __u16 c)
{
    __u16 m = a < b ? a : b;
    return m < c ? m : c;
}

static long row(__u32 i, void *ctx)
{
    __u32 y = i + 1;
    if (y > MAX)
        return 1;
    for (__u32 x = 1; x <= MAX; x++) {
        __u16 cost = left[y - 1] != right[x - 1];
        distance[y][x] = min3(distance[y - 1][x] + 1, distance[y][x - 1] + 1, distance[y - 1][x - 1] + cost);
    }
    return 0;
}

SEC("xdp")
int edit_distance(void *ctx)
{
    for (int k = 0; k <= MAX; k++)
        distance[k][0] = distance[0][k] = k;
    bpf_loop(MAX, row, NULL, 0);
    return distance[9][9];
}
char LICENSE[] SEC("license") = "GPL";
