// MurmurHash3 of texts of all lengths, with the tail by a switch that falls through.
#include <linux/bpf.h>
#include <bpf/bpf_helpers.h>

static inline __u32 rotl(__u32 x, int r)
{
    return (x << r) | (x >> (32 - r));
}

static __u32 murmur3(const unsigned char *key, int len, __u32 seed)
{
    const __u32 c1 = 0xcc9e2d51, c2 = 0x1b873593;
    __u32 h = seed, k = 0;
    int blocks = len >> 2;

    for (int i = 0; i < blocks; i++) {
        const unsigned char *b = key + 4 * i;
        k = b[0] | b[1] << 8 | b[2] << 16 | (__u32)b[3] << 24;
        k *= c1;
        k = rotl(k, 15);
        k *= c2;
        h ^= k;
        h = rotl(h, 13);
        h = h * 5 + 0xe6546b64;
    }
    const unsigned char *tail = key + 4 * blocks;
    k = 0;
    switch (len & 3) {
    case 3:
        k ^= tail[2] << 16;
        /* fall through */
    case 2:
        k ^= tail[1] << 8;
        /* fall through */
    case 1:
        k ^= tail[0];
        k *= c1;
        k = rotl(k, 15);
        k *= c2;
        h ^= k;
    }
    h ^= len;
    h ^= h >> 16;
    h *= 0x85ebca6b;
    h ^= h >> 13;
    h *= 0xc2b2ae35;
    h ^= h >> 16;
    return h;
}

unsigned char message[32] = "connection tracking of packets";
__u32 hashes[31];

static long each(__u32 i, void *ctx)
{
    if (i < 31)
        hashes[i] = murmur3(message, i, *(__u32 *)ctx);
    return 0;
}

SEC("xdp")
int murmur(__u64 arg)
{
    __u32 seed = arg * 0x9747b28c;

    bpf_loop(31, each, &seed, 0);
    return hashes[30] >> 1;
}
