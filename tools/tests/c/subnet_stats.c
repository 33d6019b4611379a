// Counters of subnets by masks, in structures with anonymous unions, reported by rank.
#include <linux/bpf.h>
#include <bpf/bpf_helpers.h>

union address {
    __u32 word;
    __u8 octet[4];
    struct {
        __u16 low, high;
    };
};

struct subnet {
    union address base;
    __u32 mask;
    struct {
        __u64 packets, bytes;
    } in, out;
    const char *name;
};

static char lan[] = "lan", dmz[] = "dmz", guests[] = "guests";
struct subnet subnets[] = {
    { .base.octet = { 0, 1, 168, 192 }, .mask = 0xffffff00, .name = lan },
    { .base.octet = { 0, 0, 16, 172 }, .mask = 0xfff00000, .name = dmz },
    { .base.word = 0x0a000000, .mask = 0xff000000, .name = guests },
};
#define COUNT (int)(sizeof(subnets) / sizeof(subnets[0]))

__u8 rank[3];
char winner[8];
__u64 unknown;

static struct subnet *subnet_of(union address a)
{
    for (int i = 0; i < COUNT; i++)
        if ((a.word & subnets[i].mask) == subnets[i].base.word)
            return &subnets[i];
    return NULL;
}

static long count(__u32 i, void *ctx)
{
    union address source, target;
    struct subnet *s;

    source.word = i * 0x9e3779b9 + *(__u32 *)ctx;
    if (i % 3 == 0)
        source.high = 0xc0a8;
    if (i % 3 == 1)
        source.octet[3] = 10;
    target.word = source.word ^ 0x01010101;
    target.octet[3] = i % 2 ? 172 : 10;
    if (i % 2)
        target.octet[2] = 16 + i % 16;
    s = subnet_of(source);
    if (s) {
        s->out.packets++;
        s->out.bytes += i;
    } else {
        unknown++;
    }
    s = subnet_of(target);
    if (s) {
        s->in.packets++;
        s->in.bytes += 2 * i;
    }
    return 0;
}

SEC("xdp")
long subnet_statistics(__u64 arg)
{
    __u32 seed = arg;

    bpf_loop(120, count, &seed, 0);
    for (int i = 0; i < COUNT; i++) {
        rank[i] = 0;
        for (int k = 0; k < COUNT; k++)
            if (subnets[k].in.packets + subnets[k].out.packets > subnets[i].in.packets + subnets[i].out.packets)
                rank[i]++;
        if (rank[i] == 0)
            for (int k = 0; k < 7 && subnets[i].name[k]; k++)
                winner[k] = subnets[i].name[k];
    }
    return subnets[2].in.bytes;
}
