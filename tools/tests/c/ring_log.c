// A ring buffer of records of several lengths, with a producer and a consumer.
#include <linux/bpf.h>
#include <bpf/bpf_helpers.h>

#define RING 128
#define HEADER 2

struct ring {
    __u8 data[RING];
    __u32 head, tail;
    __u32 lost;
};

struct record {
    __u8 length;
    __u8 type;
    __u8 body[14];
};

struct ring ring;
__u32 by_type[4];
__u64 digest = 14695981039346656037ULL;

static __u32 available(const struct ring *r)
{
    return RING - (r->head - r->tail);
}

static int put(struct ring *r, const struct record *rec)
{
    if (available(r) < rec->length + HEADER) {
        r->lost++;
        return -1;
    }
    r->data[r->head++ % RING] = rec->length;
    r->data[r->head++ % RING] = rec->type;
    for (int i = 0; i < rec->length && i < (int)sizeof(rec->body); i++)
        r->data[r->head++ % RING] = rec->body[i];
    return 0;
}

static int get(struct ring *r, struct record *rec)
{
    if (r->head == r->tail)
        return -1;
    rec->length = r->data[r->tail++ % RING];
    rec->type = r->data[r->tail++ % RING];
    for (int i = 0; i < rec->length && i < (int)sizeof(rec->body); i++)
        rec->body[i] = r->data[r->tail++ % RING];
    return 0;
}

static long turn(__u32 i, void *ctx)
{
    struct record rec = { .length = i * 5 % 15, .type = i & 3 };

    if (rec.length > sizeof(rec.body))
        rec.length = sizeof(rec.body);
    __builtin_memset(rec.body, (int)i + *(__u8 *)ctx, sizeof(rec.body));
    put(&ring, &rec);
    if (i % 4 == 3) {
        struct record out;
        for (int n = 0; n < 3 && get(&ring, &out) == 0; n++) {
            by_type[out.type & 3]++;
            for (int k = 0; k < out.length && k < (int)sizeof(out.body); k++)
                digest = (digest ^ out.body[k]) * 1099511628211ULL;
        }
    }
    return 0;
}

SEC("xdp")
int log_ring(__u64 arg)
{
    __u8 seed = arg;

    bpf_loop(64, turn, &seed, 0);
    return ring.lost * 100 + (ring.head - ring.tail);
}
