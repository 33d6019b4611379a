// The checksums of 16 IPv4 headers, each of 20 bytes in three words: 16-bit fields are shifted and masked out of them.
#include "bpf.h"

#define HEADERS 16
#define WORDS 3

__u64 headers[HEADERS * WORDS] = {0x00401c463c000045ULL, 0x0068a8c000000640ULL, 0xa8c1ULL};

static long check(__u32 i, void *ctx) {
    __u64 sum = 0;
    if (i >= HEADERS)
        return 1;
#pragma unroll
    for (int k = 0; k < WORDS; k++) {
        __u64 word = headers[i * WORDS + k];
        sum += (word & 0xffff) + (word >> 16 & 0xffff);
        if (k < 2)
            sum += (word >> 32 & 0xffff) + (word >> 48);
    }
    sum = (sum & 0xffff) + (sum >> 16);
    sum = (sum & 0xffff) + (sum >> 16);
    headers[i * WORDS + 1] = (headers[i * WORDS + 1] & ~0xffff0000ULL) | (~sum & 0xffff) << 16;
    return 0;
}

SEC("xdp") long checksum(__u64 argument) {
    return bpf_loop(HEADERS, check, 0, 0);
}
