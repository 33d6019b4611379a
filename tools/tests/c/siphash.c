// SipHash-2-4 of short keys, with functions that aren't inlined.
#include <linux/bpf.h>
#include <bpf/bpf_helpers.h>

#define ROTL(x, b) ((x) << (b) | (x) >> (64 - (b)))

struct sip {
    __u64 v0, v1, v2, v3;
};

const volatile __u64 key[2] = { 0x0706050403020100ULL, 0x0f0e0d0c0b0a0908ULL };
__u64 hashes[16];
__u8 message[16];

static __noinline int rounds(struct sip *s, int n)
{
    for (int k = 0; k < 4; k++) {
        if (k >= n)
            break;
        s->v0 += s->v1; s->v1 = ROTL(s->v1, 13); s->v1 ^= s->v0; s->v0 = ROTL(s->v0, 32);
        s->v2 += s->v3; s->v3 = ROTL(s->v3, 16); s->v3 ^= s->v2;
        s->v0 += s->v3; s->v3 = ROTL(s->v3, 21); s->v3 ^= s->v0;
        s->v2 += s->v1; s->v1 = ROTL(s->v1, 17); s->v1 ^= s->v2; s->v2 = ROTL(s->v2, 32);
    }
    return 0;
}

static long hash_one(__u32 i, void *ctx)
{
    struct sip s = {
        key[0] ^ 0x736f6d6570736575ULL, key[1] ^ 0x646f72616e646f6dULL,
        key[0] ^ 0x6c7967656e657261ULL, key[1] ^ 0x7465646279746573ULL,
    };
    __u64 last = (__u64)i << 56;
    if (i >= 16)
        return 1;
    if (i >= 8) {
        __u64 m = 0;
        for (int k = 0; k < 8; k++)
            m |= (__u64)message[k] << 8 * k;
        s.v3 ^= m;
        rounds(&s, 2);
        s.v0 ^= m;
    }
    for (__u32 k = 0; k < 8; k++)
        if (k < i % 8)
            last |= (__u64)message[i / 8 * 8 + k] << 8 * k;
    s.v3 ^= last;
    rounds(&s, 2);
    s.v0 ^= last;
    s.v2 ^= 0xff;
    rounds(&s, 4);
    hashes[i] = s.v0 ^ s.v1 ^ s.v2 ^ s.v3;
    return 0;
}

SEC("xdp")
int siphash(void *ctx)
{
    for (int k = 0; k < 16; k++)
        message[k] = k;
    bpf_loop(16, hash_one, NULL, 0);
    return hashes[15];
}
char LICENSE[] SEC("license") = "GPL";
