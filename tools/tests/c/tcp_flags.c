// TCP headers with bit-fields: which combinations of flags are met.
#include <linux/bpf.h>
#include <bpf/bpf_helpers.h>

struct tcphdr {
    __be16 source;
    __be16 dest;
    __be32 seq;
    __be32 ack_seq;
    __u16 res1 : 4, doff : 4, fin : 1, syn : 1, rst : 1, psh : 1, ack : 1, urg : 1, ece : 1, cwr : 1;
    __be16 window;
    __u16 check;
    __u16 urg_ptr;
};

struct tcphdr headers[24];
struct stats {
    __u32 syn : 8, synack : 8, fin : 8, rst : 8;
    __u32 data : 20;
    __u32 odd : 12;
} stats;

static long fill(__u32 i, void *ctx)
{
    struct tcphdr *h;
    __u32 x = i * 0x45d9f3b + *(__u32 *)ctx;
    if (i >= 24)
        return 1;
    h = &headers[i];
    h->seq = x;
    h->doff = 5 + (x >> 28) % 4;
    h->syn = x >> 4;
    h->ack = x >> 5;
    h->fin = (x & 0xf00) == 0;
    h->rst = (x >> 12 & 7) == 3;
    h->psh = !h->syn;
    h->window = 1000 * i;
    return 0;
}

static long classify(__u32 i, void *ctx)
{
    const struct tcphdr *h = &headers[i];
    if (h->syn && h->ack)
        stats.synack++;
    else if (h->syn)
        stats.syn++;
    if (h->fin)
        stats.fin++;
    if (h->rst)
        stats.rst++;
    if (h->psh)
        stats.data += h->doff * 4 + h->window;
    if (h->syn && h->fin)
        stats.odd |= 1 << (i & 7);
    return 0;
}

SEC("xdp")
int tcp_flags(void *ctx)
{
    __u32 salt = (__u64)ctx;
    bpf_loop(24, fill, &salt, 0);
    bpf_loop(24, classify, NULL, 0);
    return stats.data;
}
char LICENSE[] SEC("license") = "GPL";
