// Longest prefix match by a tree of nodes with four children.
#include <linux/bpf.h>
#include <bpf/bpf_helpers.h>

#define NODES 64
#define NONE 0

struct node {
    __u16 child[4];
    __s16 route;
};

struct prefix {
    __u32 address;
    __u8 length;
    __s16 route;
};

static const struct prefix prefixes[] = {
    { 0x0a000000, 8, 1 },  { 0x0a010000, 16, 2 }, { 0x0a018000, 18, 3 }, { 0xc0a80000, 16, 4 },
    { 0xc0a80100, 24, 5 }, { 0x00000000, 0, 6 },  { 0x0a01fe00, 24, 7 },
};

struct node nodes[NODES];
__u16 count;
__s16 answers[8];

static __u16 new_node(void)
{
    if (count >= NODES)
        return NONE;
    nodes[count].route = -1;
    return count++;
}

static int insert(const struct prefix *p)
{
    __u16 at = 0;

    for (int depth = 0; depth < 16; depth++) {
        if (2 * depth >= p->length)
            break;
        __u16 *next = &nodes[at].child[p->address >> (30 - 2 * depth) & 3];
        if (*next == NONE) {
            *next = new_node();
            if (*next == NONE)
                return -1;
        }
        at = *next;
        if (at >= NODES)
            return -1;
    }
    nodes[at].route = p->route;
    return 0;
}

static __s16 lookup(__u32 address)
{
    __s16 best = -1;
    __u16 at = 0;

    for (int depth = 0; depth <= 16; depth++) {
        const struct node *n = &nodes[at];
        if (n->route >= 0)
            best = n->route;
        if (depth == 16)
            break;
        at = n->child[address >> (30 - 2 * depth) & 3];
        if (at == NONE || at >= NODES)
            break;
    }
    return best;
}

static long add(__u32 i, void *ctx)
{
    if (i >= sizeof(prefixes) / sizeof(prefixes[0]))
        return 1;
    return insert(&prefixes[i]) != 0;
}

static long ask(__u32 i, void *ctx)
{
    static const __u32 addresses[8] = {
        0x0a000001, 0x0a010203, 0x0a01a003, 0x0a01fe09, 0xc0a80001, 0xc0a80105, 0x08080808, 0x0a017fff,
    };
    __u32 *mask = ctx;
    answers[i & 7] = lookup(addresses[i & 7] ^ *mask);
    return 0;
}

SEC("xdp")
int routes(void *ctx)
{
    __u32 mask = (__u64)ctx;
    int sum = 0;

    new_node();
    bpf_loop(16, add, NULL, 0);
    bpf_loop(8, ask, &mask, 0);
    for (int i = 0; i < 8; i++)
        sum = sum * 10 + answers[i];
    return sum;
}
