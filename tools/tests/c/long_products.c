// Products of two words, their overflow, a quotient of one, and the sum of squares that clang makes a product of.
#include <linux/bpf.h>
#include <bpf/bpf_helpers.h>

__u64 high[4], scaled[4], hashed, squares, shifted;
__u32 overflows;

static __u64 scale(__u64 value, __u64 by, __u64 over) { return (unsigned __int128)value * by / over; }

SEC("xdp") long long_products(long x) {
    __u64 value = (__u64)x * 0x9e3779b97f4a7c15ULL + 1;
    for (int i = 0; i < 4; i++) {
        unsigned __int128 product = (unsigned __int128)value * (value ^ i);
        __u64 low;
        __s64 small;
        high[i] = product >> 64;
        scaled[i] = scale(value, i + 3, value | 1024);
        overflows += __builtin_mul_overflow(value, (__u64)i, &low);
        overflows += __builtin_mul_overflow((__s64)value, (__s64)(i - 2), &small);
        hashed ^= (__u64)product ^ high[i] ^ low;
        value += high[i];
    }
    for (__u64 i = 0; i < (value & 1023); i++)
        squares += i * i;
    shifted = (unsigned __int128)value * value >> (x & 127);
    return squares;
}
