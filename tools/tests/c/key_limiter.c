// A token bucket for each of several keys, in an array map, with time in microseconds.
#include <linux/bpf.h>
#include <bpf/bpf_helpers.h>

#define KEYS 8
#define BURST 5000ULL
#define PER_SECOND 2000ULL

struct bucket {
    __u64 tokens;
    __u64 last;
    __u32 passed;
    __u32 dropped;
};

struct {
    __uint(type, BPF_MAP_TYPE_ARRAY);
    __uint(max_entries, KEYS);
    __type(key, __u32);
    __type(value, struct bucket);
} buckets SEC(".maps");

struct packet {
    __u64 time;
    __u32 source;
    __u16 size;
};

__u32 verdicts[2];

static __always_inline int admit(struct bucket *b, const struct packet *p)
{
    __u64 elapsed = p->time - b->last;
    __u64 tokens = b->tokens + elapsed * PER_SECOND / 1000000;

    b->last = p->time;
    if (tokens > BURST)
        tokens = BURST;
    if (tokens < p->size) {
        b->tokens = tokens;
        b->dropped++;
        return 0;
    }
    b->tokens = tokens - p->size;
    b->passed++;
    return 1;
}

static long packet(__u32 i, void *ctx)
{
    __u32 *base = ctx;
    struct packet p = {
        .time = 1000ULL * i * i + *base,
        .source = i * 2246822519u >> 20,
        .size = 64 + (i * 97) % 1400,
    };
    __u32 key = p.source % KEYS;
    struct bucket *b = bpf_map_lookup_elem(&buckets, &key);

    if (!b)
        return 1;
    verdicts[admit(b, &p)]++;
    return 0;
}

SEC("xdp")
int limit(__u64 arg)
{
    __u32 base = arg;
    struct bucket *b;

    for (__u32 key = 0; key < KEYS; key++) {
        b = bpf_map_lookup_elem(&buckets, &key);
        if (b)
            b->tokens = BURST;
    }
    bpf_loop(300, packet, &base, 0);
    return verdicts[1];
}
