// Addresses of IPv4 and IPv6 in one union, hashed and compared by their words and by their bytes.
#include <linux/bpf.h>
#include <bpf/bpf_helpers.h>

#define N 16

struct address {
    __u8 family; /* 4 or 6 */
    union {
        __be32 v4;
        __be32 v6[4];
        __u8 bytes[16];
        __u16 groups[8];
    };
};

struct address seen[N];
__u32 hashes[N];
__u8 same_as[N];
__u16 last_groups[N];

static __u32 hash(const struct address *a)
{
    __u32 h = 2166136261u;
    int length = a->family == 4 ? 4 : 16;
    for (int k = 0; k < 16; k++) {
        if (k >= length)
            break;
        h ^= a->bytes[k];
        h *= 16777619;
    }
    return h;
}

static long add(__u32 i, void *ctx)
{
    struct address *a = &seen[i & (N - 1)];
    if (i % 3) {
        a->family = 4;
        a->v4 = 0x0100000a + (i % 5 << 24);
    } else {
        a->family = 6;
        a->groups[0] = 0x0120;
        for (int k = 1; k < 8; k++)
            a->groups[k] = i % 2 * k;
    }
    hashes[i & (N - 1)] = hash(a);
    last_groups[i & (N - 1)] = a->groups[7];
    return 0;
}

static long compare(__u32 i, void *ctx)
{
    for (__u32 k = 0; k < N; k++) {
        if (hashes[k] == hashes[i & (N - 1)] && seen[k].family == seen[i & (N - 1)].family) {
            same_as[i & (N - 1)] = k;
            break;
        }
    }
    return 0;
}

SEC("xdp")
int address_union(void *ctx)
{
    __u32 sum = 0;
    bpf_loop(N, add, NULL, 0);
    bpf_loop(N, compare, NULL, 0);
    for (int k = 0; k < N; k++)
        sum = sum * 31 + same_as[k];
    return sum;
}
char LICENSE[] SEC("license") = "GPL";
