// Moving averages and ranges of several sensors, each with a window of its own length.
#include <linux/bpf.h>
#include <bpf/bpf_helpers.h>

#define SENSORS 4
#define LONGEST 16

struct window {
    __s32 values[LONGEST];
    __s64 sum;
    __u8 length;
    __u8 filled;
    __u8 at;
};

struct summary {
    __s32 average, low, high;
};

struct window windows[SENSORS];
struct summary summaries[SENSORS];

static __s32 divide(__s64 sum, __u32 by)
{
    return sum < 0 ? -(__s32)((__u64)-sum / by) : (__s32)((__u64)sum / by);
}

static void push(struct window *w, __s32 value)
{
    if (w->filled == w->length)
        w->sum -= w->values[w->at];
    else
        w->filled++;
    w->values[w->at] = value;
    w->sum += value;
    if (++w->at == w->length)
        w->at = 0;
}

static void summarize(const struct window *w, struct summary *s)
{
    s->average = divide(w->sum, w->filled);
    s->low = s->high = w->values[0];
    for (int i = 1; i < w->filled; i++) {
        __s32 v = w->values[i];
        if (v < s->low)
            s->low = v;
        if (v > s->high)
            s->high = v;
    }
}

static long sample(__u32 i, void *ctx)
{
    int sensor = i % SENSORS;
    __s32 noise = (__s32)(i * 1103515245u + *(__u32 *)ctx) >> 20;

    push(&windows[sensor], sensor * 100 - 150 + noise);
    return 0;
}

SEC("xdp")
int averages(__u64 arg)
{
    __u32 seed = arg;

    for (int i = 0; i < SENSORS; i++)
        windows[i].length = 4 << (i % 3);
    bpf_loop(90, sample, &seed, 0);
    for (int i = 0; i < SENSORS; i++)
        summarize(&windows[i], &summaries[i]);
    return summaries[2].average;
}
