// A context that is a global structure, and a callback of type int.
#include <linux/bpf.h>
#include <bpf/bpf_helpers.h>

struct stats {
    __u32 count;
    __u32 sum;
    __u16 last[4];
};

struct stats even, odd;

static int visit(__u32 index, void *data)
{
    struct stats *s = data;
    s->count++;
    s->sum += index * index;
    s->last[s->count & 3] = index;
    return s->sum > 5000;
}

SEC("xdp")
int ctx_global(void *ctx)
{
    long a = bpf_loop(10, visit, &even, 0);
    long b = bpf_loop(100, visit, &odd, 0);
    return a * 1000 + b;
}
char LICENSE[] SEC("license") = "GPL";
