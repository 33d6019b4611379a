// Base64 to bytes, with padding and errors.
#include <linux/bpf.h>
#include <bpf/bpf_helpers.h>

static const char text[] = "VGhlIHF1aWNrIGJyb3duIGZveCBqdW1wcyBvdmVyIHRoZSBsYXp5IGRvZy4=";
char decoded[64];
int length;
_Bool failed;

static int digit(char c)
{
    if (c >= 'A' && c <= 'Z')
        return c - 'A';
    if (c >= 'a' && c <= 'z')
        return c - 'a' + 26;
    if (c >= '0' && c <= '9')
        return c - '0' + 52;
    switch (c) {
    case '+':
        return 62;
    case '/':
        return 63;
    default:
        return -1;
    }
}

static long quad(__u32 index, void *ctx)
{
    const char *from = text + 4 * index;
    __u32 bits = 0;
    int padding = 0;

    if (4 * index + 4 > sizeof(text) - 1)
        return 1;
    for (int i = 0; i < 4; i++) {
        int d = digit(from[i]);

        if (from[i] == '=') {
            padding++;
            d = 0;
        } else if (d < 0) {
            failed = 1;
            return 1;
        }
        bits = bits << 6 | d;
    }
    for (int i = 0; i < 3 - padding; i++) {
        if (length < (int)sizeof(decoded))
            decoded[length++] = bits >> (16 - 8 * i);
    }
    return padding > 0;
}

SEC("xdp")
int decode(void *ctx)
{
    bpf_loop(64, quad, NULL, 0);
    return failed ? -1 : length;
}
