// A small compressor of the LZ77 kind, and its inverse.
#include <linux/bpf.h>
#include <bpf/bpf_helpers.h>

#define SIZE 64
#define WINDOW 32

const char source[SIZE] = "abracadabra abracadabra abraabra cadabra abracadabra!";
struct { __u8 distance, length, next; } codes[SIZE];
char restored[SIZE];
int used;

static int match(int at, int from)
{
    int n = 0;

    while (at + n < SIZE - 1 && n < 15 && source[at + n] == source[from + n])
        n++;
    return n;
}

static long encode(__u32 i, void *ctx)
{
    int *at = ctx;
    int best = 0, distance = 0;

    if (*at >= SIZE)
        return 1;
    for (int d = 1; d <= WINDOW && d <= *at; d++) {
        int n = match(*at, *at - d);
        if (n > best) {
            best = n;
            distance = d;
        }
    }
    codes[used].distance = distance;
    codes[used].length = best;
    codes[used].next = source[*at + best];
    used++;
    *at += best + 1;
    return *at >= SIZE;
}

static int decode(void)
{
    int at = 0;

    for (int i = 0; i < used && i < SIZE; i++) {
        for (int n = 0; n < codes[i].length && at < SIZE; n++, at++)
            restored[at] = restored[at - codes[i].distance];
        if (at < SIZE)
            restored[at++] = codes[i].next;
    }
    return at;
}

SEC("xdp")
int lz(__u64 arg)
{
    int at = 0, same = 0;

    bpf_loop(SIZE, encode, &at, 0);
    decode();
    for (int i = 0; i < SIZE; i++)
        same += restored[i] == source[i];
    return used * 100 + same;
}
