// Numbers of 64 bits as digits, their greatest common divisors and square roots.
#include <linux/bpf.h>
#include <bpf/bpf_helpers.h>

#define N 12

__u64 numbers[N];
char digits[N][21];
__u64 roots[N];
__u32 divisors[N];

static __u64 isqrt(__u64 x)
{
    __u64 r = x;
    if (x < 2)
        return x;
    r = 1ULL << 32;
    for (int k = 0; k < 40; k++) {
        __u64 next = (r + x / r) / 2;
        if (next >= r)
            break;
        r = next;
    }
    return r;
}

static __u32 gcd(__u32 a, __u32 b)
{
    for (int k = 0; k < 48 && b; k++) {
        __u32 t = a % b;
        a = b;
        b = t;
    }
    return a;
}

static long one(__u32 i, void *ctx)
{
    __u64 x;
    int at = 20;
    if (i >= N)
        return 1;
    x = numbers[i];
    roots[i] = isqrt(x);
    divisors[i] = gcd(x >> 20, 720720);
    do {
        digits[i][--at] = '0' + x % 10;
        x /= 10;
    } while (x && at > 0);
    return 0;
}

SEC("xdp")
int division(void *ctx)
{
    __u64 x = 1 + (__u64)ctx;
    for (int i = 0; i < N; i++) {
        numbers[i] = x;
        x = x * 6364136223846793005ULL + 1442695040888963407ULL;
        if (i & 1)
            x >>= 20;
    }
    bpf_loop(N, one, NULL, 0);
    return roots[3];
}
char LICENSE[] SEC("license") = "GPL";
