// Arithmetic of int, short and signed char: promotion, truncation, shifts and saturation.
#include <linux/bpf.h>
#include <bpf/bpf_helpers.h>

signed char chars[16];
short shorts[16];
int ints[16];
unsigned char clipped[16];
int negative, overflowed;

static short saturate(int v)
{
    if (v > 32767)
        return 32767;
    if (v < -32768)
        return -32768;
    return v;
}

static unsigned char clip(int v)
{
    return v < 0 ? 0 : v > 255 ? 255 : v;
}

static int magnitude(int v)
{
    return v < 0 ? -v : v;
}

static long step(__u32 i, void *ctx)
{
    int base = *(int *)ctx;
    signed char c = (signed char)(i * 37 + base);
    short s = c * 300;
    int n = s * c;

    i &= 15;
    chars[i] = c >> 1;
    shorts[i] = saturate(s + c * 200);
    ints[i] = n - c * 16;
    clipped[i] = clip(128 + s / 256u * 0 + (s >> 6));
    if (c < 0)
        negative++;
    if (magnitude(s) > 30000)
        overflowed++;
    return 0;
}

SEC("xdp")
int small(__u64 arg)
{
    int base = (int)arg - 100;
    int sum = 0;

    bpf_loop(16, step, &base, 0);
    for (int i = 15; i >= 0; i--)
        sum += chars[i] * (i - 8) + (shorts[i] >> 4) + (ints[i] & 255) - clipped[i];
    return sum;
}
