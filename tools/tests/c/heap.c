// A priority queue in a heap of 16-bit priorities: pushes, and pops in order.
#include <linux/bpf.h>
#include <bpf/bpf_helpers.h>

#define CAPACITY 32

struct item {
    __u16 priority;
    __u16 id;
};

struct item heap[CAPACITY];
__u32 size;
__u16 order[CAPACITY];
__u32 popped;

static void swap(struct item *a, struct item *b)
{
    struct item t = *a;
    *a = *b;
    *b = t;
}

static void push(__u16 priority, __u16 id)
{
    __u32 at = size;
    if (at >= CAPACITY)
        return;
    size++;
    heap[at].priority = priority;
    heap[at].id = id;
    while (at > 0) {
        __u32 up = (at - 1) / 2;
        if (heap[up].priority <= heap[at].priority)
            break;
        swap(&heap[up], &heap[at]);
        at = up;
    }
}

static struct item pop(void)
{
    struct item top = heap[0];
    __u32 at = 0;
    size--;
    heap[0] = heap[size & (CAPACITY - 1)];
    for (;;) {
        __u32 child = 2 * at + 1;
        if (child >= size || child >= CAPACITY)
            break;
        if (child + 1 < size && child + 1 < CAPACITY && heap[child + 1].priority < heap[child].priority)
            child++;
        if (heap[at].priority <= heap[child].priority)
            break;
        swap(&heap[at], &heap[child]);
        at = child;
    }
    return top;
}

static long fill(__u32 i, void *ctx)
{
    push((i * 577 + 13) % 251, i);
    return 0;
}

static long drain(__u32 i, void *ctx)
{
    struct item next;
    if (!size || popped >= CAPACITY)
        return 1;
    next = pop();
    order[popped++] = next.id;
    return 0;
}

SEC("xdp")
int heap_order(void *ctx)
{
    bpf_loop(28, fill, NULL, 0);
    bpf_loop(CAPACITY, drain, NULL, 0);
    return order[0] << 16 | order[27];
}
char LICENSE[] SEC("license") = "GPL";
