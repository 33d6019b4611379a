// The checksum of an IPv4 header, over its bytes; it is put in and tested.
#include <linux/bpf.h>
#include <bpf/bpf_helpers.h>
#include <bpf/bpf_endian.h>

struct iphdr {
    __u8 ihl : 4, version : 4;
    __u8 tos;
    __be16 tot_len;
    __be16 id;
    __be16 frag_off;
    __u8 ttl;
    __u8 protocol;
    __sum16 check;
    __be32 saddr;
    __be32 daddr;
};

struct iphdr header;
__u8 valid;

static __u16 checksum(const __u8 *bytes, int length)
{
    __u32 sum = 0;
    for (int k = 0; k + 1 < length; k += 2)
        sum += bytes[k] << 8 | bytes[k + 1];
    while (sum >> 16)
        sum = (sum & 0xffff) + (sum >> 16);
    return ~sum;
}

SEC("xdp")
int ip_checksum(void *ctx)
{
    header.version = 4;
    header.ihl = 5;
    header.tot_len = bpf_htons(60 + ((__u64)ctx & 0xff));
    header.id = bpf_htons(0x1c46);
    header.frag_off = bpf_htons(0x4000);
    header.ttl = 64;
    header.protocol = 6;
    header.saddr = bpf_htonl(0xac100a63);
    header.daddr = bpf_htonl(0xac100a0c);
    header.check = 0;
    header.check = bpf_htons(checksum((__u8 *)&header, sizeof(header)));
    valid = checksum((__u8 *)&header, sizeof(header)) == 0;
    return bpf_ntohs(header.check);
}
char LICENSE[] SEC("license") = "GPL";
