// Headers of packets by unions, bit-fields and packed structures, with checksums.
#include <linux/bpf.h>
#include <bpf/bpf_helpers.h>
#include <bpf/bpf_endian.h>

struct ip {
    __u8 ihl : 4, version : 4;
    __u8 dscp : 6, ecn : 2;
    __u16 length, id;
    __u16 fragment;
    __u8 ttl, protocol;
    __u16 check;
    union {
        __u32 word;
        __u8 bytes[4];
    } source, target;
} __attribute__((packed));

struct tcp {
    __u16 source, target;
    __u32 sequence, acknowledged;
    union {
        struct {
            __u16 reserved : 4, offset : 4, fin : 1, syn : 1, rst : 1, psh : 1, ack : 1, urg : 1, ece : 1, cwr : 1;
        };
        __u16 flags;
    };
    __u16 window, check, urgent;
} __attribute__((packed));

struct packet {
    __u8 mac[14];
    struct ip ip;
    struct tcp tcp;
} __attribute__((packed));

struct packet packets[6];
__u32 syns, resets, fragments, local;
__u16 sums[6];

static __u16 checksum(const void *header, int words)
{
    const __u16 *at = header;
    __u32 sum = 0;

    for (int i = 0; i < words; i++)
        sum += at[i];
    sum = (sum & 0xffff) + (sum >> 16);
    sum += sum >> 16;
    return ~sum;
}

static void make(struct packet *p, __u32 i)
{
    p->mac[12] = 8;
    p->ip.version = 4;
    p->ip.ihl = 5;
    p->ip.dscp = i * 11;
    p->ip.ecn = i;
    p->ip.length = bpf_htons(sizeof(p->ip) + sizeof(p->tcp));
    p->ip.id = bpf_htons(i * 321);
    p->ip.fragment = i == 4 ? bpf_htons(0x2000) : 0;
    p->ip.ttl = 64 - i;
    p->ip.protocol = 6;
    p->ip.source.word = bpf_htonl(0x0a000000 + i * 257);
    p->ip.target.bytes[0] = i % 2 ? 127 : 192;
    p->ip.target.bytes[3] = i;
    p->tcp.source = bpf_htons(1024 + i);
    p->tcp.target = bpf_htons(443);
    p->tcp.sequence = bpf_htonl(i * 0x01010101);
    p->tcp.offset = 5;
    p->tcp.syn = i < 3;
    p->tcp.ack = i != 0;
    p->tcp.rst = i == 5;
    p->ip.check = checksum(&p->ip, sizeof(p->ip) / 2);
}

static long parse(__u32 i, void *ctx)
{
    struct packet *p;

    if (i >= 6)
        return 1;
    p = &packets[i];
    make(p, i + *(__u32 *)ctx);
    if (p->ip.version != 4 || p->ip.ihl < 5)
        return 1;
    if (p->ip.target.bytes[0] == 127)
        local++;
    if (bpf_ntohs(p->ip.fragment) & 0x3fff)
        fragments++;
    if (p->tcp.syn && !p->tcp.ack)
        syns++;
    resets += p->tcp.rst;
    sums[i] = checksum(&p->ip, 10);
    return 0;
}

SEC("xdp")
int headers(__u64 arg)
{
    __u32 first = arg & 3;

    bpf_loop(6, parse, &first, 0);
    return syns * 1000 + resets * 100 + fragments * 10 + local;
}
