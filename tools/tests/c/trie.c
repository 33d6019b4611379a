// A trie of words in arrays of bytes: words are put in, prefixes are counted.
#include <linux/bpf.h>
#include <bpf/bpf_helpers.h>

#define NODES 64

struct node {
    __u8 children[26];
    __u8 words : 4, ends : 1;
    __u8 depth;
};

struct node nodes[NODES];
__u32 used = 1;
static const char words[8][8] = { "tea", "ten", "to", "team", "inn", "in", "tens", "teapot" };
static const char queries[5][8] = { "te", "tea", "i", "x", "teapots" };
__u8 counts[5];

static long insert(__u32 w, void *ctx)
{
    __u32 at = 0;
    if (w >= 8)
        return 1;
    for (int k = 0; k < 8; k++) {
        __u8 letter = words[w][k] - 'a';
        if (letter >= 26)
            break;
        if (!nodes[at].children[letter]) {
            if (used >= NODES)
                return 1;
            nodes[used].depth = k + 1;
            nodes[at].children[letter] = used++;
        }
        at = nodes[at].children[letter];
        if (at >= NODES)
            return 1;
        nodes[at].words++;
    }
    nodes[at].ends = 1;
    return 0;
}

static long query(__u32 q, void *ctx)
{
    __u32 at = 0;
    if (q >= 5)
        return 1;
    for (int k = 0; k < 8 && queries[q][k]; k++) {
        at = nodes[at].children[(queries[q][k] - 'a') % 26u];
        if (!at || at >= NODES)
            return 0;
    }
    counts[q] = nodes[at].words | nodes[at].ends << 7;
    return 0;
}

SEC("xdp")
int trie(void *ctx)
{
    bpf_loop(8, insert, NULL, 0);
    bpf_loop(5, query, NULL, 0);
    return used << 8 | counts[1];
}
char LICENSE[] SEC("license") = "GPL";
