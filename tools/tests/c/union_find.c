// Sets that are joined by edges, with halved paths.
#include <linux/bpf.h>
#include <bpf/bpf_helpers.h>

#define N 48

__u8 parents[N], ranks[N];
__u32 joins;

static __u8 root(__u8 x)
{
    for (int k = 0; k < N && parents[x] != x; k++) {
        parents[x] = parents[parents[x]];
        x = parents[x];
    }
    return x;
}

static long join(__u32 i, void *ctx)
{
    __u8 a = root(i * 7 % N), b = root((i * i + 3) % N);
    if (a == b)
        return 0;
    if (ranks[a] < ranks[b]) {
        __u8 t = a;
        a = b;
        b = t;
    }
    parents[b] = a;
    if (ranks[a] == ranks[b])
        ranks[a]++;
    joins++;
    return 0;
}

SEC("xdp")
int union_find(void *ctx)
{
    int sets = 0;
    for (int k = 0; k < N; k++)
        parents[k] = k;
    bpf_loop(40, join, NULL, 0);
    for (int k = 0; k < N; k++)
        sets += parents[k] == k;
    return sets * 100 + joins;
}
char LICENSE[] SEC("license") = "GPL";
