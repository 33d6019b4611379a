// Lengths of Huffman's codes for the letters of a text, by joining the two rarest again and again.
#include <linux/bpf.h>
#include <bpf/bpf_helpers.h>

#define LETTERS 16
#define NODES (2 * LETTERS - 1)

const char text[] = "abracadabra alakazam abba";
__u16 weights[NODES];
__u8 parents[NODES];
__u8 lengths[LETTERS];
__u8 nodes = LETTERS;

static int rarest(void)
{
    int best = -1;
    for (int k = 0; k < NODES; k++)
        if (k < nodes && weights[k] && !parents[k] && (best < 0 || weights[k] < weights[best]))
            best = k;
    return best;
}

static long join(__u32 i, void *ctx)
{
    int a, b;
    if (nodes >= NODES)
        return 1;
    a = rarest();
    if (a < 0)
        return 1;
    parents[a] = nodes;
    b = rarest();
    if (b < 0) {
        parents[a] = 0;
        return 1;
    }
    parents[b] = nodes;
    weights[nodes] = weights[a] + weights[b];
    nodes++;
    return 0;
}

SEC("xdp")
int huffman(void *ctx)
{
    int bits = 0;
    for (int k = 0; k < sizeof(text) - 1; k++)
        weights[text[k] & (LETTERS - 1)]++;
    bpf_loop(LETTERS, join, NULL, 0);
    for (int k = 0; k < LETTERS; k++) {
        __u8 at = k;
        for (int up = 0; up < LETTERS && weights[k] && parents[at]; up++) {
            at = parents[at];
            lengths[k]++;
        }
        bits += lengths[k] * weights[k];
    }
    return bits;
}
char LICENSE[] SEC("license") = "GPL";
