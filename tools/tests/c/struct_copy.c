// Orders matched in a book: structures copied whole, sorted by insertion, and taken out from the middle.
#include <linux/bpf.h>
#include <bpf/bpf_helpers.h>

struct order {
    __u32 id;
    __s32 price;
    __u16 amount;
    char side;
    __u8 flags;
};

#define DEPTH 12

struct book {
    struct order bids[DEPTH], asks[DEPTH];
    __u8 bid_count, ask_count;
};

struct book book;
struct order last_trade;
__u32 trades, rejected;
static int next_id = 100;

static int insert(struct order *list, __u8 *count, const struct order *new, int sign)
{
    int at = *count;

    if (at >= DEPTH) {
        rejected++;
        return -1;
    }
    while (at > 0 && sign * list[at - 1].price > sign * new->price) {
        list[at] = list[at - 1];
        at--;
    }
    list[at] = *new;
    (*count)++;
    return at;
}

static void remove_first(struct order *list, __u8 *count)
{
    for (int i = 1; i < *count && i < DEPTH; i++)
        list[i - 1] = list[i];
    (*count)--;
}

static long trade(__u32 i, void *ctx)
{
    struct order o = {
        .id = next_id++,
        .price = 1000 + (int)((i * 37 + *(__u32 *)ctx) % 41) - 20,
        .amount = 1 + i % 9,
        .side = i & 1 ? 'S' : 'B',
    };

    while (o.amount > 0) {
        struct order *best;
        if (o.side == 'B') {
            if (!book.ask_count || book.asks[0].price > o.price)
                break;
            best = &book.asks[0];
        } else {
            if (!book.bid_count || book.bids[0].price < o.price)
                break;
            best = &book.bids[0];
        }
        __u16 part = best->amount < o.amount ? best->amount : o.amount;
        best->amount -= part;
        o.amount -= part;
        trades++;
        last_trade = *best;
        last_trade.flags |= 1;
        if (!best->amount) {
            if (o.side == 'B')
                remove_first(book.asks, &book.ask_count);
            else
                remove_first(book.bids, &book.bid_count);
        }
    }
    if (o.amount) {
        if (o.side == 'B')
            insert(book.bids, &book.bid_count, &o, -1);
        else
            insert(book.asks, &book.ask_count, &o, 1);
    }
    return 0;
}

SEC("xdp")
int match(__u64 arg)
{
    __u32 seed = arg;

    bpf_loop(60, trade, &seed, 0);
    return trades * 100 + book.bid_count + book.ask_count;
}
