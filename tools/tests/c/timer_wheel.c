// Timers in a wheel of lists, which are linked by indexes.
#include <linux/bpf.h>
#include <bpf/bpf_helpers.h>

#define SLOTS 8
#define TIMERS 32
#define NIL 255

struct timer {
    __u32 deadline;
    __u8 next;
    __u8 period;
    __u16 fired;
};

struct wheel {
    __u8 heads[SLOTS];
    __u32 now;
};

struct timer timers[TIMERS];
struct wheel wheel;
__u32 late;

static void arm(struct wheel *w, __u8 id, __u32 deadline)
{
    struct timer *t = &timers[id % TIMERS];
    __u8 *head = &w->heads[deadline % SLOTS];

    t->deadline = deadline;
    t->next = *head;
    *head = id;
}

static long tick(__u32 i, void *ctx)
{
    struct wheel *w = &wheel;
    __u8 id = w->heads[w->now % SLOTS];

    w->heads[w->now % SLOTS] = NIL;
    for (int n = 0; n < TIMERS && id != NIL; n++) {
        struct timer *t = &timers[id % TIMERS];
        __u8 next = t->next;

        if (t->deadline <= w->now) {
            t->fired++;
            late += w->now - t->deadline;
            arm(w, id, w->now + t->period);
        } else {
            arm(w, id, t->deadline);
        }
        id = next;
    }
    w->now++;
    return 0;
}

SEC("xdp")
int turn(__u64 arg)
{
    __u32 sum = 0;

    for (int i = 0; i < SLOTS; i++)
        wheel.heads[i] = NIL;
    for (int i = 0; i < TIMERS; i++) {
        timers[i].period = 1 + (i * 5 + arg) % 13;
        arm(&wheel, i, timers[i].period);
    }
    bpf_loop(60, tick, NULL, 0);
    for (int i = 0; i < TIMERS; i++)
        sum += timers[i].fired * (i + 1);
    return sum;
}
