// A context that has pointers to what a callback reads and writes, for two calls with different arrays.
#include <linux/bpf.h>
#include <bpf/bpf_helpers.h>

#define N 20

__u32 a[N], b[N];
__u64 sum_a, sum_b;

struct job {
    const __u32 *from;
    __u64 *sum;
    __u32 length;
    __u32 factor;
};

static long add(__u32 i, void *ctx)
{
    struct job *job = ctx;
    if (i >= job->length || i >= N)
        return 1;
    *job->sum += (__u64)job->from[i] * job->factor;
    return 0;
}

SEC("xdp")
int ctx_pointers(void *ctx)
{
    struct job first = { a, &sum_a, N, 3 }, second = { b, &sum_b, N / 2, 7 };
    for (int i = 0; i < N; i++) {
        a[i] = i * i;
        b[i] = 1000 - i;
    }
    bpf_loop(N, add, &first, 0);
    bpf_loop(N, add, &second, 0);
    return sum_a + sum_b;
}
char LICENSE[] SEC("license") = "GPL";
