// CRC-32 by a table, which is made first.
#include <linux/bpf.h>
#include <bpf/bpf_helpers.h>

__u32 table[256];
const char message[] = "The quick brown fox jumps over the lazy dog";

struct state {
    __u32 crc;
    __u32 length;
};

static long make(__u32 i, void *ctx)
{
    __u32 c = i;
    for (int k = 0; k < 8; k++)
        c = c & 1 ? 0xedb88320 ^ (c >> 1) : c >> 1;
    table[i] = c;
    return 0;
}

static long update(__u32 i, void *ctx)
{
    struct state *s = ctx;
    if (i >= s->length)
        return 1;
    s->crc = table[(s->crc ^ (__u8)message[i]) & 0xff] ^ (s->crc >> 8);
    return 0;
}

SEC("xdp")
int crc32(void *ctx)
{
    struct state s = { .crc = ~0u, .length = sizeof(message) - 1 };
    bpf_loop(256, make, NULL, 0);
    bpf_loop(1000, update, &s, 0);
    return ~s.crc;
}
char LICENSE[] SEC("license") = "GPL";
