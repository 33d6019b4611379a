// A ring queue of events between a producer and a consumer that is slower at first.
#include <linux/bpf.h>
#include <bpf/bpf_helpers.h>

#define CAPACITY 32

struct event {
    __u64 time;
    __u16 kind;
    __u8 cpu;
    __u8 flags;
};

struct {
    struct event ring[CAPACITY];
    __u32 head, tail;
    __u32 lost;
} queue;

__u64 seen[4];
__u16 longest;

static int push(__u64 time, __u16 kind, __u8 cpu)
{
    struct event *e;
    if (queue.head - queue.tail == CAPACITY) {
        queue.lost++;
        return -1;
    }
    e = &queue.ring[queue.head & (CAPACITY - 1)];
    e->time = time;
    e->kind = kind;
    e->cpu = cpu;
    e->flags = kind & 1 ? 0x80 : 0x01;
    queue.head++;
    if (queue.head - queue.tail > longest)
        longest = queue.head - queue.tail;
    return 0;
}

static int pop(struct event *out)
{
    if (queue.head == queue.tail)
        return 0;
    *out = queue.ring[queue.tail++ % CAPACITY];
    return 1;
}

static long tick(__u32 i, void *ctx)
{
    struct event e;
    push(i * 10, i % 7, i & 3);
    if (i % 3 == 0)
        push(i * 10 + 1, 5, 1);
    if ((i < 100 ? i & 1 : 1) && pop(&e))
        seen[e.cpu & 3] += e.time + e.flags;
    return 0;
}

SEC("xdp")
int ring_queue(void *ctx)
{
    bpf_loop(200, tick, NULL, 0);
    return queue.lost << 16 | longest;
}
char LICENSE[] SEC("license") = "GPL";
