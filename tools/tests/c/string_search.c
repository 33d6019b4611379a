// Where a word stands in a text: all places, and how many.
#include <linux/bpf.h>
#include <bpf/bpf_helpers.h>

#define TEXT 128

const char text[TEXT] = "she sells sea shells by the sea shore; the shells she sells are sea shells";
static const char *const word = "shells";
__u8 found[TEXT];
__u32 matches, first = ~0u;

static long match(__u32 i, void *ctx)
{
    for (int k = 0; k < 6; k++) {
        if (i + k >= TEXT)
            return 1;
        if (text[i + k] != word[k])
            return 0;
    }
    found[i] = 1;
    matches++;
    if (i < first)
        first = i;
    return 0;
}

SEC("xdp")
int string_search(void *ctx)
{
    bpf_loop(TEXT, match, NULL, 0);
    return first * 100 + matches;
}
char LICENSE[] SEC("license") = "GPL";
