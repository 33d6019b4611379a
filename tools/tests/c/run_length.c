// A row of bytes coded by its runs, and decoded again.
#include <linux/bpf.h>
#include <bpf/bpf_helpers.h>

#define LENGTH 96

__u8 input[LENGTH];
__u8 output[LENGTH];
struct run {
    __u8 value;
    __u8 count;
} runs[LENGTH];
__u8 run_count;

struct position {
    __u16 at;
    __u16 differ;
};

static long encode(__u32 i, void *ctx)
{
    if (run_count && runs[run_count - 1].value == input[i] && runs[run_count - 1].count < 20) {
        runs[run_count - 1].count++;
    } else if (run_count < LENGTH) {
        runs[run_count].value = input[i];
        runs[run_count].count = 1;
        run_count++;
    }
    return 0;
}

static long decode(__u32 i, void *ctx)
{
    struct position *p = ctx;
    if (i >= run_count)
        return 1;
    for (__u32 k = 0; k < 20; k++) {
        if (k >= runs[i].count)
            break;
        if (p->at < LENGTH)
            output[p->at++] = runs[i].value;
    }
    return 0;
}

SEC("xdp")
int run_length(void *ctx)
{
    struct position p = {};
    for (int k = 0; k < LENGTH; k++)
        input[k] = (k / 7) * (k / 13) % 3 + ((__u64)ctx & 1);
    bpf_loop(LENGTH, encode, NULL, 0);
    bpf_loop(LENGTH, decode, &p, 0);
    for (int k = 0; k < LENGTH; k++)
        if (input[k] != output[k])
            p.differ++;
    return run_count | p.differ << 16;
}
char LICENSE[] SEC("license") = "GPL";
