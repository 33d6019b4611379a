// Packets counted by their destination port, and by protocol.
#include <linux/bpf.h>
#include <bpf/bpf_helpers.h>

#define PACKETS 200

struct packet {
    __u16 source, dest;
    __u8 protocol;
    __u8 flags;
    __u16 length;
};

struct packet packets[PACKETS];
__u32 ports[1024];
__u64 bytes_of[3];
__u32 other;

static long fill(__u32 i, void *ctx)
{
    __u32 seed = *(__u32 *)ctx;
    if (i >= PACKETS)
        return 1;
    struct packet *p = &packets[i];
    __u32 x = (i + seed) * 2654435761u;
    p->source = x >> 16;
    p->dest = (x >> 7) % 1500;
    p->protocol = x % 5 == 0 ? 17 : x % 7 == 0 ? 1 : 6;
    p->flags = i & 0x3f;
    p->length = 64 + (x & 1023);
    return 0;
}

static long count(__u32 i, void *ctx)
{
    struct packet *p;
    if (i >= PACKETS)
        return 1;
    p = &packets[i];
    if (p->dest < 1024)
        ports[p->dest]++;
    else
        other++;
    if (p->protocol == 6)
        bytes_of[0] += p->length;
    else if (p->protocol == 17)
        bytes_of[1] += p->length;
    else
        bytes_of[2] += p->length;
    return 0;
}

SEC("xdp")
int port_counters(void *ctx)
{
    __u32 seed = (__u64)ctx;
    bpf_loop(PACKETS, fill, &seed, 0);
    bpf_loop(PACKETS, count, NULL, 0);
    return bytes_of[0] + other;
}

char LICENSE[] SEC("license") = "GPL";
