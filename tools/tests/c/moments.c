// Count, sum, sum of squares and extremes, gathered in a structure that a callback writes through ctx.
#include <linux/bpf.h>
#include <bpf/bpf_helpers.h>

struct moments {
    __u64 sum;
    __u64 squares;
    __u32 count;
    __u16 least, greatest;
};

__u16 values[100];
struct moments result;

static long gather(__u32 i, void *ctx)
{
    struct moments *m = ctx;
    __u16 x;
    if (i >= 100)
        return 1;
    x = values[i];
    m->sum += x;
    m->squares += (__u64)x * x;
    m->count++;
    if (x < m->least)
        m->least = x;
    if (x > m->greatest)
        m->greatest = x;
    return 0;
}

SEC("xdp")
int moments(void *ctx)
{
    struct moments m = { .least = 0xffff };
    for (__u32 i = 0; i < 100; i++)
        values[i] = (i * i * 31 + (__u32)(__u64)ctx) % 5003;
    bpf_loop(100, gather, &m, 0);
    result = m;
    return m.sum / m.count;
}
char LICENSE[] SEC("license") = "GPL";
