// The first place of a word in a text, whose bytes are shifted and masked out of words.
#include "bpf.h"

#define LENGTH 256

const volatile char text[LENGTH] __attribute__((aligned(8))) =
    "it was the best of times, it was the worst of times, it was the age of wisdom";
__u64 found;

static __always_inline char byte_at(__u32 i) {
    const volatile __u64 *words = (const volatile __u64 *)text;
    return words[i / 8 & (LENGTH / 8 - 1)] >> (i % 8 * 8);
}

static long compare(__u32 i, void *ctx) {
    const char word[] = "worst";
#pragma unroll
    for (int k = 0; k < sizeof(word) - 1; k++)
        if (byte_at(i + k) != word[k])
            return 0;
    found = i;
    return 1;
}

SEC("xdp") long string_search(__u64 argument) {
    return bpf_loop(LENGTH, compare, 0, 0);
}
