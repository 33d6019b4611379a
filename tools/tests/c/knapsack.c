// The best value of things in a sack, by a table of 16 bits over its room, and which things are in.
#include <linux/bpf.h>
#include <bpf/bpf_helpers.h>

#define ITEMS 10
#define ROOM 40

static const struct {
    __u8 weight, value;
} items[ITEMS] = {
    { 5, 9 }, { 7, 12 }, { 3, 5 }, { 9, 20 }, { 11, 21 }, { 2, 3 }, { 13, 27 }, { 4, 7 }, { 6, 14 }, { 8, 15 },
};

__u16 best[ITEMS + 1][ROOM + 1];
_Bool taken[ITEMS];

static long item(__u32 i, void *ctx)
{
    if (i >= ITEMS)
        return 1;
    for (int room = 0; room <= ROOM; room++) {
        __u16 without = best[i][room];
        best[i + 1][room] = without;
        if (items[i].weight <= room) {
            __u16 with = best[i][room - items[i].weight] + items[i].value;
            if (with > without)
                best[i + 1][room] = with;
        }
    }
    return 0;
}

SEC("xdp")
int knapsack(void *ctx)
{
    int room = ROOM - ((__u64)ctx & 7), weight = 0;
    bpf_loop(ITEMS, item, NULL, 0);
    for (int i = ITEMS - 1; i >= 0; i--) {
        if (room >= 0 && room <= ROOM && best[i + 1][room] != best[i][room]) {
            taken[i] = 1;
            room -= items[i].weight;
            weight += items[i].weight;
        }
    }
    return best[ITEMS][ROOM] * 100 + weight;
}
char LICENSE[] SEC("license") = "GPL";
