// Ranges of ports, as pairs of 16 bits, that are asked for, joined and counted.
#include <linux/bpf.h>
#include <bpf/bpf_helpers.h>

#define RANGES 6

struct range {
    __u16 low, high;
};

struct range allowed[RANGES] = {
    { 22, 22 }, { 80, 90 }, { 443, 443 }, { 8000, 8100 }, { 30000, 40000 }, { 60000, 65535 },
};
__u16 ports[32] = { 22, 23, 80, 443, 444, 8080, 65535, 0, 30000, 29999, 59999, 60000 };
__u16 denied[32];
__u32 denials;

static long ask(__u32 i, void *ctx)
{
    __u16 port;
    if (i >= 32)
        return 1;
    port = ports[i];
    if (i >= 12)
        port = (__u16)(i * 2111) + *(__u16 *)ctx;
    ports[i] = port;
    for (int r = 0; r < RANGES; r++)
        if (port >= allowed[r].low && port <= allowed[r].high)
            return 0;
    if (denials < 32)
        denied[denials++] = port;
    return 0;
}

SEC("xdp")
int port_ranges(void *ctx)
{
    __u16 shift = (__u64)ctx * 3;
    bpf_loop(32, ask, &shift, 0);
    return denials;
}
char LICENSE[] SEC("license") = "GPL";
