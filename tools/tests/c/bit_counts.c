// Zeros in front and behind, as builtins: clang 14 and 16 crash at them.
#include <linux/bpf.h>
#include <bpf/bpf_helpers.h>

__u64 input[8];
__u32 leading[8], trailing[8], first[8], classes[65];

static __u32 log2_of(__u64 x) { return x ? 63 - __builtin_clzll(x) : 0; }

SEC("xdp") int bit_counts(long x) {
    __u64 state = (__u64)x | 1;
    int sum = 0;
    for (int i = 0; i < 8; i++) {
        state = state * 6364136223846793005ULL + 1442695040888963407ULL;
        input[i] = state >> (i * 8);
        leading[i] = __builtin_clz((__u32)input[i] | 1);
        trailing[i] = __builtin_ctzll(input[i] | 1ULL << 63);
        first[i] = __builtin_ffs((int)input[i]);
        classes[log2_of(input[i])]++;
        sum += __builtin_popcountll(input[i]);
    }
    return sum;
}
