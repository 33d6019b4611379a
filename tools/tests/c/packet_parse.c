// Headers of a packet in a row of bytes, found one behind the other as a program for XDP does it.
#include <linux/bpf.h>
#include <bpf/bpf_helpers.h>
#include <bpf/bpf_endian.h>

struct ethhdr {
    __u8 h_dest[6];
    __u8 h_source[6];
    __be16 h_proto;
} __attribute__((packed));

struct iphdr {
    __u8 ihl : 4, version : 4;
    __u8 tos;
    __be16 tot_len, id, frag_off;
    __u8 ttl, protocol;
    __u16 check;
    __be32 saddr, daddr;
};

struct udphdr {
    __be16 source, dest, len;
    __u16 check;
};

__u8 packet[64] = {
    0x00, 0x1b, 0x21, 0x3c, 0x9d, 0xf8, 0x00, 0x1b, 0x21, 0x3c, 0xab, 0xcd, 0x08, 0x00, 0x45, 0x00,
    0x00, 0x2e, 0x12, 0x34, 0x40, 0x00, 0x3f, 0x11, 0x00, 0x00, 0xc0, 0xa8, 0x01, 0x64, 0x08, 0x08,
    0x08, 0x08, 0xd4, 0x31, 0x00, 0x35, 0x00, 0x1a, 0x00, 0x00, 'q',  'u',  'e',  'r',  'y',
};
__u32 saddr, daddr;
__u16 sport, dport;
__u8 ttl;
__u64 payload_sum;

struct cursor {
    __u32 at;
    __u32 end;
};

static long add_byte(__u32 i, void *ctx)
{
    struct cursor *c = ctx;
    __u32 at = c->at + i;
    if (at >= c->end || at >= sizeof(packet))
        return 1;
    payload_sum = payload_sum * 31 + packet[at];
    return 0;
}

SEC("xdp")
int packet_parse(void *ctx)
{
    struct ethhdr *eth = (struct ethhdr *)packet;
    struct iphdr *ip = (struct iphdr *)(eth + 1);
    struct udphdr *udp = (struct udphdr *)(ip + 1);
    struct cursor c;

    if (eth->h_proto != bpf_htons(0x0800))
        return XDP_PASS;
    if (ip->version != 4 || ip->ihl != 5 || ip->protocol != 17)
        return XDP_DROP;
    saddr = bpf_ntohl(ip->saddr);
    daddr = bpf_ntohl(ip->daddr);
    ttl = --ip->ttl;
    sport = bpf_ntohs(udp->source);
    dport = bpf_ntohs(udp->dest);
    c.at = (__u8 *)(udp + 1) - packet;
    c.end = 14 + bpf_ntohs(ip->tot_len);
    bpf_loop(sizeof(packet), add_byte, &c, 0);
    return dport == 53 ? XDP_TX : XDP_PASS;
}
char LICENSE[] SEC("license") = "GPL";
