// A bit map of pages with runs that are taken and given back, by words of 32 bits.
#include <linux/bpf.h>
#include <bpf/bpf_helpers.h>

#define PAGES 128

__u32 map[PAGES / 32];
__s16 starts[24];
__u8 sizes[24];
int failures;

static __always_inline int is_set(__u32 page)
{
    return map[page / 32] >> page % 32 & 1;
}

static long take(__u32 i, void *ctx)
{
    __u32 size = i % 7 + 1, run = 0;
    if (i >= 24)
        return 1;
    if (i > 5 && i % 3 == 0) {
        __u32 old = i / 3;
        for (__u32 k = 0; k < 8; k++) {
            if (k < sizes[old] && starts[old] >= 0)
                map[(starts[old] + k) / 32] &= ~(1u << (starts[old] + k) % 32);
        }
        sizes[old] = 0;
    }
    starts[i] = -1;
    for (__u32 page = 0; page < PAGES; page++) {
        run = is_set(page) ? 0 : run + 1;
        if (run == size) {
            starts[i] = page + 1 - size;
            break;
        }
    }
    if (starts[i] < 0) {
        failures++;
        return 0;
    }
    sizes[i] = size;
    for (__u32 k = 0; k < size; k++)
        map[(starts[i] + k) / 32] |= 1u << (starts[i] + k) % 32;
    return 0;
}

SEC("xdp")
int bit_map(void *ctx)
{
    int used = 0;
    bpf_loop(24, take, NULL, 0);
    for (int page = 0; page < PAGES; page++)
        used += is_set(page);
    return used | failures << 8;
}
char LICENSE[] SEC("license") = "GPL";
