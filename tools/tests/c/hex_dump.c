// A dump of bytes as hexadecimal digits and as letters, a line for each eight.
#include <linux/bpf.h>
#include <bpf/bpf_helpers.h>

#define LINES 4
#define WIDTH 36

__u8 data[LINES * 8] = "GET / HTTP/1.1\r\nHost: a.b\r\n\r\n";
char dump[LINES][WIDTH];

static __always_inline char digit(__u8 n)
{
    return "0123456789abcdef"[n & 15];
}

static long line(__u32 i, void *ctx)
{
    char *out;
    if (i >= LINES)
        return 1;
    out = dump[i];
    for (int k = 0; k < 8; k++) {
        __u8 b = data[8 * i + k];
        out[3 * k] = digit(b >> 4);
        out[3 * k + 1] = digit(b);
        out[3 * k + 2] = k == 3 ? '-' : ' ';
        out[24 + k] = b >= ' ' && b < 127 ? b : '.';
    }
    out[32] = 0;
    return 0;
}

SEC("xdp")
int hex_dump(void *ctx)
{
    data[31] = (__u64)ctx;
    return bpf_loop(LINES, line, NULL, 0) + dump[3][22];
}
char LICENSE[] SEC("license") = "GPL";
