// A table of flows by their five-tuple, which is compared as a whole.
#include <linux/bpf.h>
#include <bpf/bpf_helpers.h>

#define FLOWS 64

struct flow_key {
    __be32 saddr;
    __be32 daddr;
    __be16 sport;
    __be16 dport;
    __u8 protocol;
    __u8 pad[3];
};

struct flow {
    struct flow_key key;
    __u64 packets;
    __u64 bytes;
    __u8 used;
};

struct flow flows[FLOWS];
__u32 overflows;

static __always_inline int same(const struct flow_key *a, const struct flow_key *b)
{
    return a->saddr == b->saddr && a->daddr == b->daddr && a->sport == b->sport && a->dport == b->dport &&
           a->protocol == b->protocol;
}

static __u32 hash(const struct flow_key *k)
{
    __u32 h = k->saddr ^ (k->daddr << 7 | k->daddr >> 25);
    h = h * 31 + k->sport;
    h = h * 31 + k->dport;
    h = h * 31 + k->protocol;
    return h ^ h >> 11;
}

static long packet(__u32 i, void *ctx)
{
    struct flow_key key = {};
    __u32 h;
    key.saddr = 0x0a000001 + i % 5;
    key.daddr = 0x0a000101 + i % 3;
    key.sport = 40000 + i % 2;
    key.dport = i % 4 ? 53 : 443;
    key.protocol = i % 4 ? 17 : 6;
    h = hash(&key);
    for (int probe = 0; probe < 8; probe++) {
        struct flow *f = &flows[(h + probe) % FLOWS];
        if (!f->used) {
            f->used = 1;
            f->key = key;
        }
        if (same(&f->key, &key)) {
            f->packets++;
            f->bytes += 60 + i;
            return 0;
        }
    }
    overflows++;
    return 0;
}

SEC("xdp")
int flow_table(void *ctx)
{
    int used = 0;
    bpf_loop(240, packet, NULL, 0);
    for (int k = 0; k < FLOWS; k++)
        used += flows[k].used;
    return used << 8 | (overflows & 255);
}
char LICENSE[] SEC("license") = "GPL";
