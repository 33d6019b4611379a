// A field of 16 bits in an array of structures, by an index that is wrong by one at most; a neighbour comes behind it.
#include <linux/bpf.h>
#include <bpf/bpf_helpers.h>

struct flow {
    __u32 bytes;
    __u16 port;
    __u8 state;
};

struct flow flows[10];
__u64 neighbour = 0x1122334455667788ULL;

static long set(__u32 i, void *ctx)
{
    __u32 last = *(__u32 *)ctx;
    if (i > last)
        return 1;
    flows[i].port = 1000 + i; // trap
    return 0;
}

SEC("xdp")
int past_neighbour(void *ctx)
{
    __u32 last = (__u64)ctx ? 10 : 9;
    return bpf_loop(100, set, &last, 0);
}
char LICENSE[] SEC("license") = "GPL";
