// Longest-prefix match over a table of routes, for a row of addresses.
#include <linux/bpf.h>
#include <bpf/bpf_helpers.h>

#define ROUTES 10
#define ADDRESSES 64
#define IP(a, b, c, d) ((__u32)(a) << 24 | (b) << 16 | (c) << 8 | (d))

struct route {
    __u32 prefix;
    __u8 length;
    __u8 port;
};

static const struct route routes[ROUTES] = {
    { IP(0, 0, 0, 0), 0, 1 },       { IP(10, 0, 0, 0), 8, 2 },      { IP(10, 1, 0, 0), 16, 3 },
    { IP(10, 1, 2, 0), 24, 4 },     { IP(10, 1, 2, 3), 32, 5 },     { IP(192, 168, 0, 0), 16, 6 },
    { IP(192, 168, 16, 0), 20, 7 }, { IP(172, 16, 0, 0), 12, 8 },   { IP(224, 0, 0, 0), 4, 9 },
    { IP(127, 0, 0, 0), 8, 10 },
};
__u8 ports[ADDRESSES];
__u16 uses[16];

static __u8 lookup(__u32 address)
{
    int best = -1;
    __u8 port = 0;
    for (int r = 0; r < ROUTES; r++) {
        int length = routes[r].length;
        __u32 mask = length ? ~0u << (32 - length) : 0;
        if ((address & mask) == routes[r].prefix && length > best) {
            best = length;
            port = routes[r].port;
        }
    }
    return port;
}

static long forward(__u32 i, void *ctx)
{
    __u32 address;
    switch (i % 5) {
    case 0: address = IP(10, 1, 2, 0) + i % 7; break;
    case 1: address = IP(10, i & 3, 9, i); break;
    case 2: address = IP(192, 168, i, 1); break;
    case 3: address = IP(172, 16 + (i & 31), 0, 1); break;
    default: address = i * 2654435761u;
    }
    if (i < ADDRESSES) {
        ports[i] = lookup(address);
        uses[ports[i] & 15]++;
    }
    return 0;
}

SEC("xdp")
int lpm(void *ctx)
{
    bpf_loop(ADDRESSES, forward, NULL, 0);
    return uses[4] << 16 | uses[7];
}
char LICENSE[] SEC("license") = "GPL";
