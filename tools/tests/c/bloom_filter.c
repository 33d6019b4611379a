// A Bloom filter in bytes: some keys are added, more are asked for.
#include <linux/bpf.h>
#include <bpf/bpf_helpers.h>

#define BITS 2048

__u8 filter[BITS / 8];
__u32 yes, no;

static __u32 hash(__u32 key, __u32 seed)
{
    __u32 h = seed ^ key;
    h ^= h >> 16;
    h *= 0x85ebca6b;
    h ^= h >> 13;
    h *= 0xc2b2ae35;
    h ^= h >> 16;
    return h;
}

static void add(__u32 key)
{
    for (int k = 0; k < 4; k++) {
        __u32 bit = hash(key, k * 0x9747b28c) % BITS;
        filter[bit / 8] |= 1 << (bit % 8);
    }
}

static int contains(__u32 key)
{
    for (int k = 0; k < 4; k++) {
        __u32 bit = hash(key, k * 0x9747b28c) % BITS;
        if (!(filter[bit / 8] & (1 << (bit % 8))))
            return 0;
    }
    return 1;
}

static long fill(__u32 i, void *ctx)
{
    add(i * 3);
    return 0;
}

static long ask(__u32 i, void *ctx)
{
    if (contains(i))
        yes++;
    else
        no++;
    return 0;
}

SEC("xdp")
int bloom(void *ctx)
{
    bpf_loop(100, fill, NULL, 0);
    bpf_loop(400, ask, NULL, 0);
    return yes;
}
char LICENSE[] SEC("license") = "GPL";
