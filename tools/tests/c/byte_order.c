// Fields of a packet's bytes in network order, read and written by swaps.
#include <linux/bpf.h>
#include <bpf/bpf_helpers.h>
#include <bpf/bpf_endian.h>

struct vxlan {
    __be32 flags;
    __be32 vni;
    __be64 stamp;
    __be16 port;
    __u8 mac[6];
};

struct vxlan out[8];
__u32 vnis[8];
__u64 stamps[8];
__u16 ports[8];

static long encode(__u32 i, void *ctx)
{
    struct vxlan *v = &out[i & 7];
    v->flags = bpf_htonl(0x08000000);
    v->vni = bpf_htonl((i * 4099 & 0xffffff) << 8);
    v->stamp = bpf_cpu_to_be64(0x0123456789abcdefULL * (i + 1));
    v->port = bpf_htons(4789 + i);
    for (int k = 0; k < 6; k++)
        v->mac[k] = i << 4 | k;
    return 0;
}

static long decode(__u32 i, void *ctx)
{
    const struct vxlan *v = &out[i & 7];
    vnis[i & 7] = bpf_ntohl(v->vni) >> 8;
    stamps[i & 7] = bpf_be64_to_cpu(v->stamp);
    ports[i & 7] = bpf_ntohs(v->port);
    return 0;
}

SEC("xdp")
int byte_order(void *ctx)
{
    __u64 sum = 0;
    bpf_loop(8, encode, NULL, 0);
    bpf_loop(8, decode, NULL, 0);
    for (int k = 0; k < 8; k++)
        sum += vnis[k] + stamps[k] + ports[k];
    return sum >> 8;
}
char LICENSE[] SEC("license") = "GPL";
