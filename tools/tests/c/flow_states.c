// A table of connections by an open hash, with states by an enum, and an aging pass.
#include <linux/bpf.h>
#include <bpf/bpf_helpers.h>

enum state { FREE, NEW, ESTABLISHED, CLOSING, DELETED };

struct key {
    __u32 source, target;
    __u16 source_port, target_port;
    __u8 protocol;
    __u8 padding[3];
};

struct connection {
    struct key key;
    enum state state;
    __u64 last_seen;
    __u64 packets, bytes;
};

#define TABLE 64
#define PROBES 16

struct connection table[TABLE];
__u64 created, expired, full;

static __u32 hash(const struct key *k)
{
    const __u32 *words = (const __u32 *)k;
    __u32 h = 0x811c9dc5;

    for (int i = 0; i < (int)(sizeof(*k) / 4); i++) {
        h ^= words[i];
        h *= 0x01000193;
        h ^= h >> 15;
    }
    return h;
}

static int equal(const struct key *a, const struct key *b)
{
    return a->source == b->source && a->target == b->target && a->source_port == b->source_port &&
           a->target_port == b->target_port && a->protocol == b->protocol;
}

static struct connection *lookup(const struct key *k)
{
    __u32 at = hash(k);
    struct connection *candidate = NULL;

    for (int probe = 0; probe < PROBES; probe++) {
        struct connection *c = &table[(at + probe) % TABLE];

        if (c->state == FREE)
            return candidate ? candidate : c;
        if (c->state == DELETED) {
            if (!candidate)
                candidate = c;
        } else if (equal(&c->key, k)) {
            return c;
        }
    }
    return candidate;
}

static long packet(__u32 i, void *ctx)
{
    __u32 r = i * 2654435761u + *(__u32 *)ctx;
    struct key k = {
        .source = 0x0a000000 | (r >> 28),
        .target = 0xc0a80001,
        .source_port = 1000 + (r >> 20 & 7),
        .target_port = 443,
        .protocol = r & 0x10000 ? 6 : 17,
    };
    struct connection *c = lookup(&k);

    if (!c) {
        full++;
        return 0;
    }
    if (c->state == FREE || c->state == DELETED) {
        c->key = k;
        c->packets = c->bytes = 0;
        c->state = NEW;
        created++;
    }
    switch (c->state) {
    case NEW:
        if (c->packets > 1)
            c->state = ESTABLISHED;
        break;
    case ESTABLISHED:
        if (r % 11 == 0)
            c->state = CLOSING;
        break;
    case CLOSING:
        c->state = DELETED;
        break;
    default:
        break;
    }
    c->packets++;
    c->bytes += 40 + r % 1400;
    c->last_seen = i;
    return 0;
}

static long age(__u32 i, void *ctx)
{
    struct connection *c = &table[i % TABLE];

    if (c->state != FREE && c->state != DELETED && c->last_seen + 100 < 400) {
        c->state = DELETED;
        expired++;
    }
    return 0;
}

SEC("xdp")
int flows(__u64 arg)
{
    __u32 seed = arg;

    bpf_loop(400, packet, &seed, 0);
    bpf_loop(TABLE, age, NULL, 0);
    return created * 1000 + expired;
}
