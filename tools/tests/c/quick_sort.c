// Quicksort with a stack of its own, and a check by binary search.
#include <linux/bpf.h>
#include <bpf/bpf_helpers.h>

#define N 24

int numbers[N];
int places[N];

struct range {
    signed char low, high;
};

static void swap(int *a, int *b)
{
    int t = *a;
    *a = *b;
    *b = t;
}

static int partition(int *a, int low, int high)
{
    int pivot = a[high], i = low;

    for (int j = low; j < high; j++)
        if (a[j] < pivot)
            swap(&a[i++], &a[j]);
    swap(&a[i], &a[high]);
    return i;
}

struct sorting {
    struct range stack[N];
    int depth;
};

static long sort_step(__u32 i, void *ctx)
{
    struct sorting *s = ctx;

    if (s->depth <= 0 || s->depth > N)
        return 1;
    struct range r = s->stack[--s->depth];
    if (r.low < 0 || r.high >= N || r.low >= r.high)
        return 0;
    int middle = partition(numbers, r.low, r.high);
    if (s->depth + 2 > N)
        return 1;
    s->stack[s->depth++] = (struct range){ r.low, middle - 1 };
    s->stack[s->depth++] = (struct range){ middle + 1, r.high };
    return 0;
}

SEC("xdp")
int quick_sort(__u64 arg)
{
    struct sorting s = { .depth = 1 };
    int inversions = 0;

    for (int i = 0; i < N; i++)
        numbers[i] = (int)((i + 1) * 2654435761u + (__u32)arg) >> 16;
    s.stack[0].high = N - 1;
    bpf_loop(4 * N, sort_step, &s, 0);
    for (int i = 1; i < N; i++)
        inversions += numbers[i - 1] > numbers[i];
    for (int i = 0; i < N; i++) {
        int low = 0, high = N;
        while (low < high) {
            int middle = (low + high) / 2u;
            if (numbers[middle] < numbers[i])
                low = middle + 1;
            else
                high = middle;
        }
        places[i] = low;
    }
    return inversions * 1000 + places[N - 1];
}
