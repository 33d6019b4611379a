// How often each of 128 characters stands in a text, the median and the three most frequent.
#include <linux/bpf.h>
#include <bpf/bpf_helpers.h>

const volatile char text[160] =
    "In the beginning the Universe was created. This has made a lot of people very angry and been widely "
    "regarded as a bad move.";
__u8 counts[128];
__u8 most[3];
__u8 median;
__u32 seen;

static long count(__u32 i, void *ctx)
{
    __u8 c = text[i % sizeof(text)];

    if (!c)
        return 0;
    if (counts[c & 127] < 255)
        counts[c & 127]++;
    __sync_fetch_and_add(&seen, 1);
    return 0;
}

SEC("xdp")
int histogram(__u64 arg)
{
    __u32 sum = 0;

    bpf_loop(sizeof(text) - (arg & 63), count, NULL, 0);
    for (int rank = 0; rank < 3; rank++) {
        int best = -1;
        for (int c = 0; c < 128; c++) {
            if ((rank > 0 && c == most[0]) || (rank > 1 && c == most[1]))
                continue;
            if (best < 0 || counts[c] > counts[best])
                best = c;
        }
        most[rank] = best;
    }
    for (int c = 0; c < 128; c++) {
        sum += counts[c];
        if (2 * sum >= seen) {
            median = c;
            break;
        }
    }
    return median * 1000 + counts[most[0]];
}
