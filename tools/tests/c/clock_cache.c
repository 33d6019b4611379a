// A cache of 16 pages whose hand goes round like that of a clock.
#include <linux/bpf.h>
#include <bpf/bpf_helpers.h>

#define FRAMES 16

struct frame {
    __u32 page;
    __u8 valid, referenced, dirty;
};

struct frame frames[FRAMES];
__u8 hand;
__u64 hits, misses, written_back;

static struct frame *find(__u32 page)
{
    for (int i = 0; i < FRAMES; i++)
        if (frames[i].valid && frames[i].page == page)
            return &frames[i];
    return NULL;
}

static struct frame *victim(void)
{
    for (int i = 0; i < 2 * FRAMES; i++) {
        struct frame *f = &frames[hand];
        hand = (hand + 1) % FRAMES;
        if (!f->valid || !f->referenced)
            return f;
        f->referenced = 0;
    }
    return &frames[hand];
}

static long reference(__u32 i, void *ctx)
{
    __u32 *seed = ctx;
    __u32 page = ((i * 2654435761u) ^ *seed) >> 27;
    struct frame *f = find(page);

    if (f) {
        hits++;
    } else {
        misses++;
        f = victim();
        if (f->valid && f->dirty)
            written_back++;
        f->page = page;
        f->valid = 1;
        f->dirty = 0;
    }
    f->referenced = 1;
    if (i % 3 == 0)
        f->dirty = 1;
    return 0;
}

SEC("tc")
int run_clock(__u64 arg)
{
    __u32 seed = (__u32)arg * 40503;

    bpf_loop(200, reference, &seed, 0);
    return hits * 1000 + written_back;
}

char _license[] SEC("license") = "GPL";
