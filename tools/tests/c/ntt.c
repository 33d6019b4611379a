// A number-theoretic transform of 16 numbers modulo 998244353, and back.
#include <linux/bpf.h>
#include <bpf/bpf_helpers.h>

#define N 16
#define P 998244353u

__u32 v[N];
__u32 spectrum[N];
_Bool same;

static __u32 mul(__u32 a, __u32 b)
{
    return (__u64)a * b % P;
}

static __u32 power(__u32 base, __u32 exponent)
{
    __u32 result = 1;
    for (int k = 0; k < 30; k++) {
        if (exponent & 1)
            result = mul(result, base);
        base = mul(base, base);
        exponent >>= 1;
    }
    return result;
}

struct transform {
    __u32 root;
    __u32 out[N];
};

static long frequency(__u32 i, void *ctx)
{
    struct transform *t = ctx;
    __u32 sum = 0, step = power(t->root, i), w = 1;
    for (int k = 0; k < N; k++) {
        sum = (sum + mul(v[k], w)) % P;
        w = mul(w, step);
    }
    if (i < N)
        t->out[i] = sum;
    return 0;
}

SEC("xdp")
int ntt(void *ctx)
{
    struct transform t = {};
    __u32 root = power(3, (P - 1) / N), inverse = power(N, P - 2);
    for (int k = 0; k < N; k++)
        v[k] = k * k + 7 + ((__u64)ctx & 15);
    t.root = root;
    bpf_loop(N, frequency, &t, 0);
    for (int k = 0; k < N; k++) {
        spectrum[k] = t.out[k];
        v[k] = t.out[k];
    }
    t.root = power(root, P - 2);
    bpf_loop(N, frequency, &t, 0);
    same = 1;
    for (int k = 0; k < N; k++) {
        v[k] = mul(t.out[k], inverse);
        if (v[k] != k * k + 7 + ((__u64)ctx & 15))
            same = 0;
    }
    return spectrum[1];
}
char LICENSE[] SEC("license") = "GPL";
