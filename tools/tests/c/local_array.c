// Arrays on the stack, indexed by variables: counting sort of a few letters, and a median of five.
#include <linux/bpf.h>
#include <bpf/bpf_helpers.h>

const char word[] = "mississippi river";
char sorted[32];
__u32 medians[10];

static __u32 median5(const __u32 *v)
{
    __u32 w[5];
    __builtin_memcpy(w, v, sizeof(w));
    for (int a = 0; a < 4; a++) {
        for (int b = 0; b < 4 - a; b++) {
            if (w[b] > w[b + 1]) {
                __u32 t = w[b];
                w[b] = w[b + 1];
                w[b + 1] = t;
            }
        }
    }
    return w[2];
}

static long one_median(__u32 i, void *ctx)
{
    __u32 v[5];
    if (i >= 10)
        return 1;
    for (int k = 0; k < 5; k++)
        v[k] = (i * 37 + k * 61 + (k ^ i) * 17) % 101;
    medians[i] = median5(v);
    return 0;
}

SEC("xdp")
int local_array(void *ctx)
{
    __u8 counts[27] = {};
    int out = 0;
    for (int k = 0; k < sizeof(word) - 1; k++)
        counts[word[k] == ' ' ? 0 : word[k] - 'a' + 1]++;
    for (int letter = 0; letter < 27; letter++)
        for (int n = 0; n < 8; n++)
            if (n < counts[letter] && out < 31)
                sorted[out++] = letter ? 'a' + letter - 1 : ' ';
    bpf_loop(10, one_median, NULL, 0);
    return out * 1000 + medians[7];
}
char LICENSE[] SEC("license") = "GPL";
