// Texts put together in buffers on the stack, compared and copied.
#include <linux/bpf.h>
#include <bpf/bpf_helpers.h>

#define LINE 40

char lines[8][LINE];
__u8 sizes[8];
int duplicates;

static int put_hex(char *to, __u32 value, int digits)
{
    static const char hex[] = "0123456789abcdef";

    for (int i = digits - 1; i >= 0; i--) {
        to[i] = hex[value & 15];
        value >>= 4;
    }
    return digits;
}

static int put_text(char *to, const char *from)
{
    int n = 0;

    while (from[n]) {
        to[n] = from[n];
        n++;
    }
    return n;
}

static int same(const char *a, const char *b)
{
    for (int i = 0; i < LINE; i++) {
        if (a[i] != b[i])
            return 0;
        if (!a[i])
            break;
    }
    return 1;
}

static long make_line(__u32 i, void *ctx)
{
    char buffer[LINE] = {};
    int at = 0;
    __u32 address = 0xc0a80000 + (i % 5) * 0x101 + *(__u32 *)ctx;

    if (i >= 8)
        return 1;
    at += put_text(buffer + at, "from ");
    at += put_hex(buffer + at, address >> 16, 4);
    buffer[at++] = ':';
    at += put_hex(buffer + at, address, 4);
    at += put_text(buffer + at, i & 1 ? " dropped" : " passed");
    for (__u32 k = 0; k < i; k++)
        if (same(lines[k], buffer))
            duplicates++;
    __builtin_memcpy(lines[i], buffer, sizeof(buffer));
    sizes[i] = at;
    return 0;
}

SEC("xdp")
int texts(__u64 arg)
{
    __u32 seed = arg & 0xff;

    bpf_loop(8, make_line, &seed, 0);
    return duplicates * 100 + sizes[7];
}
