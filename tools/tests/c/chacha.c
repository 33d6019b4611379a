// A block of ChaCha20 from the key, counter and nonce of RFC 8439.
#include "bpf.h"

typedef unsigned int u32;
typedef unsigned char u8;

#define ROTL(x, n) ((x) << (n) | (x) >> (32 - (n)))
#define QUARTER(a, b, c, d)                                                                                          \
    do {                                                                                                             \
        a += b, d ^= a, d = ROTL(d, 16);                                                                             \
        c += d, b ^= c, b = ROTL(b, 12);                                                                             \
        a += b, d ^= a, d = ROTL(d, 8);                                                                              \
        c += d, b ^= c, b = ROTL(b, 7);                                                                              \
    } while (0)

u32 input[16], x[16];
u8 stream[64];

static long double_round(__u32 i, void *ctx) {
    QUARTER(x[0], x[4], x[8], x[12]);
    QUARTER(x[1], x[5], x[9], x[13]);
    QUARTER(x[2], x[6], x[10], x[14]);
    QUARTER(x[3], x[7], x[11], x[15]);
    QUARTER(x[0], x[5], x[10], x[15]);
    QUARTER(x[1], x[6], x[11], x[12]);
    QUARTER(x[2], x[7], x[8], x[13]);
    QUARTER(x[3], x[4], x[9], x[14]);
    return 0;
}

static long serialize(__u32 i, void *ctx) {
    if (i < 64)
        stream[i] = (x[i / 4] + input[i / 4]) >> (8 * (i & 3));
    return 0;
}

SEC("xdp") long chacha(__u64 argument) {
    input[0] = 0x61707865, input[1] = 0x3320646e, input[2] = 0x79622d32, input[3] = 0x6b206574;
    for (int k = 0; k < 8; k++)
        input[4 + k] = (4 * k + 3) << 24 | (4 * k + 2) << 16 | (4 * k + 1) << 8 | 4 * k;
    input[12] = 1;
    input[13] = 0x09000000, input[14] = 0x4a000000;
    for (int k = 0; k < 16; k++)
        x[k] = input[k];
    bpf_loop(10, double_round, 0, 0);
    bpf_loop(64, serialize, 0, 0);
    return stream[0] | stream[1] << 8 | stream[2] << 16 | (long)stream[3] << 24;
}
