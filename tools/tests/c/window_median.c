// The median of the last values: a window that is kept in order by insertion and removal.
#include <linux/bpf.h>
#include <bpf/bpf_helpers.h>

#define WINDOW 15
#define SAMPLES 120

static __s32 ring[WINDOW];
static __s32 ordered[WINDOW];
static __u32 used, at;
__s32 medians[SAMPLES];
__s32 lowest = 0x7fffffff, highest = -0x7fffffff;

static void take_out(__s32 value)
{
    __u32 i = 0;

    while (i < used && ordered[i] != value)
        i++;
    for (; i + 1 < used && i + 1 < WINDOW; i++)
        ordered[i] = ordered[i + 1];
    if (used)
        used--;
}

static void put_in(__s32 value)
{
    __u32 i = used;

    if (i >= WINDOW)
        return;
    for (; i > 0 && ordered[i - 1] > value; i--)
        ordered[i] = ordered[i - 1];
    ordered[i] = value;
    used++;
}

static long sample(__u32 i, void *ctx)
{
    __s64 *state = ctx;
    __s32 value;

    *state = *state * 6364136223846793005LL + 1442695040888963407LL;
    value = (__u64)*state >> 40 & 1023;
    value -= 500;
    if (used == WINDOW)
        take_out(ring[at]);
    ring[at] = value;
    at = (at + 1) % WINDOW;
    put_in(value);
    if (i < SAMPLES)
        medians[i] = ordered[used / 2];
    return 0;
}

SEC("xdp")
int window_median(__s64 arg)
{
    __s64 state = arg;

    bpf_loop(SAMPLES, sample, &state, 0);
    for (int i = 0; i < SAMPLES; i++) {
        if (medians[i] < lowest)
            lowest = medians[i];
        if (medians[i] > highest)
            highest = medians[i];
    }
    return highest - lowest;
}

char LICENSE[] SEC("license") = "GPL";
