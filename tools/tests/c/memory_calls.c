// Functions of C's library, of lengths that aren't known, or are long, and of overlapping bytes.
#include <linux/bpf.h>
#include <bpf/bpf_helpers.h>
#include <string.h>

char text[40] = "the quick brown fox", copy[40], moved[40];
__u32 table[200], other[200];
int order, order_long, found;
__u64 length;

SEC("xdp") int memory_calls(long x) {
    __u32 n = x & 15;
    memcpy(copy, text, n);
    memcpy(moved, text, sizeof(text));
    memmove(moved + 2, moved, n + 3);
    memmove(moved, moved + 1, n + 9);
    memset(table, n, (n + 3) * sizeof(table[0]));
    memset(other, 0x5a, sizeof(other));
    memcpy(table + 20, other, 100 * sizeof(table[0]));
    order = memcmp(copy, text, n + 1) < 0;
    order_long = memcmp(table, other, sizeof(table)) == 0;
    found = strncmp(text, "the slow", 4) == 0 && strcmp(copy, text) != 0 && strchr(text, 'q') == text + 4;
    length = strlen(moved);
    return length + n;
}
