// A table of connections whose old entries are closed, by state and age.
#include <linux/bpf.h>
#include <bpf/bpf_helpers.h>

#define ENTRIES 64

enum state { CLOSED, SYN_SENT, ESTABLISHED, FIN_WAIT };

struct connection {
    __u32 saddr, daddr;
    __u16 sport, dport;
    __u8 state;
    __u8 pad;
    __u16 retries;
    __u64 seen;
};

struct connection table[ENTRIES];
__u64 closed_by[4];
const volatile __u64 limits[4] = { 0, 30, 600, 60 };

static long open_one(__u32 i, void *ctx)
{
    struct connection *c = &table[i % ENTRIES];
    c->saddr = 0x0a000000 | i;
    c->daddr = 0xc0a80001;
    c->sport = 30000 + i * 3;
    c->dport = i & 1 ? 443 : 80;
    c->state = i % 4;
    c->retries = i % 3;
    c->seen = i * 17;
    return 0;
}

static long clean(__u32 i, void *ctx)
{
    __u64 now = *(__u64 *)ctx;
    struct connection *c;
    __u8 state;
    if (i >= ENTRIES)
        return 1;
    c = &table[i];
    state = c->state;
    if (state == CLOSED)
        return 0;
    if (now - c->seen <= limits[state & 3])
        return 0;
    __sync_fetch_and_add(&closed_by[state & 3], 1);
    __builtin_memset(c, 0, sizeof(*c));
    return 0;
}

SEC("xdp")
int cleanup(void *ctx)
{
    __u64 now = 1000 + (__u64)ctx;
    bpf_loop(ENTRIES, open_one, NULL, 0);
    bpf_loop(ENTRIES, clean, &now, 0);
    return closed_by[SYN_SENT] + closed_by[ESTABLISHED] * 100 + closed_by[FIN_WAIT] * 10000;
}
char LICENSE[] SEC("license") = "GPL";
