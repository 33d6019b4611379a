// Runs of pages from a bitmap of 256, first fit.
#include <linux/bpf.h>
#include <bpf/bpf_helpers.h>
#include <stdbool.h>

#define PAGES 256
#define BITS 64

__u64 used[PAGES / BITS];
struct block {
    __s16 first;
    __u16 pages;
} blocks[24];
__u32 failures, free_pages;

static bool is_used(__u32 page)
{
    return used[page / BITS] >> (page % BITS) & 1;
}

static void mark(__u32 first, __u32 count, bool on)
{
    for (__u32 i = 0; i < count; i++) {
        __u32 page = first + i;
        if (page >= PAGES)
            break;
        if (on)
            used[page / BITS] |= 1ULL << (page % BITS);
        else
            used[page / BITS] &= ~(1ULL << (page % BITS));
    }
}

struct search {
    __u32 wanted;
    __u32 run;
    __s32 found;
};

static long try_page(__u32 page, void *ctx)
{
    struct search *s = ctx;

    if (page >= PAGES)
        return 1;
    s->run = is_used(page) ? 0 : s->run + 1;
    if (s->run == s->wanted) {
        s->found = page + 1 - s->wanted;
        return 1;
    }
    return 0;
}

static long request(__u32 i, void *ctx)
{
    struct search s = { .wanted = 1 + (i * 7 + *(__u32 *)ctx) % 23, .found = -1 };
    struct block *b = &blocks[i % 24];

    if (b->pages) {
        mark(b->first, b->pages, false);
        b->pages = 0;
    }
    bpf_loop(PAGES, try_page, &s, 0);
    if (s.found < 0) {
        failures++;
        b->first = -1;
        return 0;
    }
    mark(s.found, s.wanted, true);
    b->first = s.found;
    b->pages = s.wanted;
    return 0;
}

SEC("xdp")
int allocate(__u64 arg)
{
    __u32 seed = arg;

    bpf_loop(40, request, &seed, 0);
    for (int i = 0; i < PAGES; i++)
        free_pages += !is_used(i);
    return free_pages;
}
