// SHA-256 of a short message: a schedule of 64 words, and a round for each.
#include <linux/bpf.h>
#include <bpf/bpf_helpers.h>

#define ROTR(x, n) ((x) >> (n) | (x) << (32 - (n)))

static const __u32 k[64] = {
    0x428a2f98, 0x71374491, 0xb5c0fbcf, 0xe9b5dba5, 0x3956c25b, 0x59f111f1, 0x923f82a4, 0xab1c5ed5,
    0xd807aa98, 0x12835b01, 0x243185be, 0x550c7dc3, 0x72be5d74, 0x80deb1fe, 0x9bdc06a7, 0xc19bf174,
    0xe49b69c1, 0xefbe4786, 0x0fc19dc6, 0x240ca1cc, 0x2de92c6f, 0x4a7484aa, 0x5cb0a9dc, 0x76f988da,
    0x983e5152, 0xa831c66d, 0xb00327c8, 0xbf597fc7, 0xc6e00bf3, 0xd5a79147, 0x06ca6351, 0x14292967,
    0x27b70a85, 0x2e1b2138, 0x4d2c6dfc, 0x53380d13, 0x650a7354, 0x766a0abb, 0x81c2c92e, 0x92722c85,
    0xa2bfe8a1, 0xa81a664b, 0xc24b8b70, 0xc76c51a3, 0xd192e819, 0xd6990624, 0xf40e3585, 0x106aa070,
    0x19a4c116, 0x1e376c08, 0x2748774c, 0x34b0bcb5, 0x391c0cb3, 0x4ed8aa4a, 0x5b9cca4f, 0x682e6ff3,
    0x748f82ee, 0x78a5636f, 0x84c87814, 0x8cc70208, 0x90befffa, 0xa4506ceb, 0xbef9a3f7, 0xc67178f2,
};

__u8 block[64] = "abc";
__u32 w[64];
__u32 state[8] = {
    0x6a09e667, 0xbb67ae85, 0x3c6ef372, 0xa54ff53a, 0x510e527f, 0x9b05688c, 0x1f83d9ab, 0x5be0cd19,
};
__u8 digest[32];

struct rounds {
    __u32 a, b, c, d, e, f, g, h;
};

static long schedule(__u32 i, void *ctx)
{
    if (i >= 64)
        return 1;
    if (i < 16) {
        w[i] = (__u32)block[4 * i] << 24 | block[4 * i + 1] << 16 | block[4 * i + 2] << 8 | block[4 * i + 3];
    } else {
        __u32 s0 = ROTR(w[i - 15], 7) ^ ROTR(w[i - 15], 18) ^ w[i - 15] >> 3;
        __u32 s1 = ROTR(w[i - 2], 17) ^ ROTR(w[i - 2], 19) ^ w[i - 2] >> 10;
        w[i] = w[i - 16] + s0 + w[i - 7] + s1;
    }
    return 0;
}

static long round(__u32 i, void *ctx)
{
    struct rounds *r = ctx;
    __u32 t1, t2;
    if (i >= 64)
        return 1;
    t1 = r->h + (ROTR(r->e, 6) ^ ROTR(r->e, 11) ^ ROTR(r->e, 25)) + ((r->e & r->f) ^ (~r->e & r->g)) + k[i] + w[i];
    t2 = (ROTR(r->a, 2) ^ ROTR(r->a, 13) ^ ROTR(r->a, 22)) + ((r->a & r->b) ^ (r->a & r->c) ^ (r->b & r->c));
    r->h = r->g;
    r->g = r->f;
    r->f = r->e;
    r->e = r->d + t1;
    r->d = r->c;
    r->c = r->b;
    r->b = r->a;
    r->a = t1 + t2;
    return 0;
}

SEC("xdp")
int sha256(void *ctx)
{
    struct rounds r;
    block[3] = 0x80;
    block[63] = 24;
    bpf_loop(64, schedule, NULL, 0);
    __builtin_memcpy(&r, state, sizeof(r));
    bpf_loop(64, round, &r, 0);
    state[0] += r.a;
    state[1] += r.b;
    state[2] += r.c;
    state[3] += r.d;
    state[4] += r.e;
    state[5] += r.f;
    state[6] += r.g;
    state[7] += r.h;
    for (int n = 0; n < 32; n++)
        digest[n] = state[n / 4] >> (24 - n % 4 * 8);
    return state[0];
}
char LICENSE[] SEC("license") = "GPL";
