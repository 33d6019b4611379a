// The sieve of Eratosthenes in bytes, with a loop of a number of rounds that isn't known.
#include "bpf.h"

#define N 256

unsigned char composite[N];
unsigned short primes[64];
unsigned int count;

static long strike(__u32 i, void *ctx) {
    unsigned int p = i + 2;
    if (p * p >= N)
        return 1;
    if (composite[p])
        return 0;
    for (unsigned int m = p * p; m < N; m += p)
        composite[m] = 1;
    return 0;
}

static long gather(__u32 i, void *ctx) {
    if (i < 2 || composite[i])
        return 0;
    if (count < 64)
        primes[count++] = i;
    return 0;
}

SEC("xdp") long sieve(__u64 argument) {
    bpf_loop(N, strike, 0, 0);
    bpf_loop(N, gather, 0, 0);
    return count * 1000 + primes[count - 1];
}
