// A set of numbers with linear probing: put, ask, remove with tombstones.
#include <linux/bpf.h>
#include <bpf/bpf_helpers.h>

#define SLOTS 128
#define PROBES 16

enum { EMPTY = 0, USED = 1, GONE = 2 };

struct slot {
    __u32 key;
    __u8 state;
};
struct slot slots[SLOTS];
__u32 full, held, lost;

static __always_inline __u32 start_of(__u32 key)
{
    return key * 0x9e3779b1 >> 25;
}

static struct slot *find(__u32 key)
{
    __u32 at = start_of(key);
    for (int p = 0; p < PROBES; p++) {
        struct slot *s = &slots[(at + p) % SLOTS];
        if (s->state == EMPTY)
            return NULL;
        if (s->state == USED && s->key == key)
            return s;
    }
    return NULL;
}

static long put(__u32 i, void *ctx)
{
    __u32 key = i * i + *(__u32 *)ctx, at = start_of(key);
    if (find(key))
        return 0;
    for (int p = 0; p < PROBES; p++) {
        struct slot *s = &slots[(at + p) % SLOTS];
        if (s->state != USED) {
            s->key = key;
            s->state = USED;
            held++;
            return 0;
        }
    }
    full++;
    return 0;
}

static long drop(__u32 i, void *ctx)
{
    struct slot *s = find(i * i * 9 + *(__u32 *)ctx);
    if (!s) {
        lost++;
        return 0;
    }
    s->state = GONE;
    held--;
    return 0;
}

SEC("xdp")
int hash_set(void *ctx)
{
    __u32 salt = (__u64)ctx;
    bpf_loop(90, put, &salt, 0);
    bpf_loop(40, drop, &salt, 0);
    bpf_loop(100, put, &salt, 0);
    return held * 1000 + full * 100 + lost;
}
char LICENSE[] SEC("license") = "GPL";
