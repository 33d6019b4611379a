// Puts segments of a stream in order: what comes early waits, what overlaps is cut.
#include <stdbool.h>
#include <linux/bpf.h>
#include <bpf/bpf_helpers.h>

#define STREAM 128
#define WAITING 6
#define SEGMENT 12

struct segment {
    __u32 start;
    __u16 length; // 0 where the place is free
    __u8 data[SEGMENT];
};

struct segment waiting[WAITING];
__u8 stream[STREAM];
__u32 next;
__u32 in_order, early, old, lost;

static int deliver(const struct segment *s)
{
    __u32 skip;

    if (s->start > next)
        return 0;
    skip = next - s->start;
    if (skip >= s->length) {
        old++;
        return 1;
    }
    for (__u32 k = skip; k < s->length && k < SEGMENT; k++)
        if (next < STREAM)
            stream[next++] = s->data[k];
    in_order++;
    return 1;
}

static void drain(void)
{
    bool is_changed = true;

    for (int pass = 0; pass < WAITING && is_changed; pass++) {
        is_changed = false;
        for (int i = 0; i < WAITING; i++) {
            if (waiting[i].length && deliver(&waiting[i])) {
                waiting[i].length = 0;
                is_changed = true;
            }
        }
    }
}

static void keep(const struct segment *s)
{
    for (int i = 0; i < WAITING; i++) {
        if (!waiting[i].length) {
            waiting[i] = *s;
            early++;
            return;
        }
    }
    lost++;
}

static long segment(__u32 i, void *ctx)
{
    __u32 x = (i + 1) * (*(__u32 *)ctx | 1) * 2654435761u;
    struct segment s = {};

    s.start = (i ^ (i >> 1 & 1)) * 8;
    s.length = 8 + (x >> 12) % (SEGMENT - 7);
    for (int k = 0; k < s.length; k++)
        s.data[k] = (s.start + k) * 7;
    if (deliver(&s))
        drain();
    else
        keep(&s);
    return 0;
}

SEC("tc")
int reassemble(__u64 arg)
{
    __u32 seed = arg;

    bpf_loop(24, segment, &seed, 0);
    return next;
}

char LICENSE[] SEC("license") = "GPL";
