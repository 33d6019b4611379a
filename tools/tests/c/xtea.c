// Encrypts blocks of 64 bits in a chain, and decrypts them again.
#include <stdbool.h>
#include <linux/bpf.h>
#include <bpf/bpf_helpers.h>

#define BLOCKS 8
#define ROUNDS 32
#define DELTA 0x9e3779b9u

struct block {
    __u32 v0, v1;
};

const volatile __u32 key[4] = {0x00010203, 0x04050607, 0x08090a0b, 0x0c0d0e0f};
struct block plain[BLOCKS], cipher[BLOCKS], back[BLOCKS];
bool is_same = true;

static __noinline void encrypt(struct block *b)
{
    __u32 v0 = b->v0, v1 = b->v1, sum = 0;

    for (int i = 0; i < ROUNDS; i++) {
        v0 += ((v1 << 4 ^ v1 >> 5) + v1) ^ (sum + key[sum & 3]);
        sum += DELTA;
        v1 += ((v0 << 4 ^ v0 >> 5) + v0) ^ (sum + key[sum >> 11 & 3]);
    }
    b->v0 = v0;
    b->v1 = v1;
}

static __noinline void decrypt(struct block *b)
{
    __u32 v0 = b->v0, v1 = b->v1, sum = DELTA * ROUNDS;

    for (int i = ROUNDS; i > 0; i--) {
        v1 -= ((v0 << 4 ^ v0 >> 5) + v0) ^ (sum + key[sum >> 11 & 3]);
        sum -= DELTA;
        v0 -= ((v1 << 4 ^ v1 >> 5) + v1) ^ (sum + key[sum & 3]);
    }
    b->v0 = v0;
    b->v1 = v1;
}

SEC("xdp")
int xtea(__u64 arg)
{
    struct block chain = {arg, arg >> 32};

    for (int i = 0; i < BLOCKS; i++) {
        plain[i].v0 = i * 0x01010101u + arg;
        plain[i].v1 = ~i;
        chain.v0 ^= plain[i].v0;
        chain.v1 ^= plain[i].v1;
        encrypt(&chain);
        cipher[i] = chain;
    }
    for (int i = BLOCKS - 1; i >= 0; i--) {
        struct block b = cipher[i];

        decrypt(&b);
        back[i].v0 = b.v0 ^ (i ? cipher[i - 1].v0 : (__u32)arg);
        back[i].v1 = b.v1 ^ (i ? cipher[i - 1].v1 : (__u32)(arg >> 32));
        if (back[i].v0 != plain[i].v0 || back[i].v1 != plain[i].v1)
            is_same = false;
    }
    return is_same ? cipher[BLOCKS - 1].v0 : 0;
}

char LICENSE[] SEC("license") = "GPL";
