// A ring of records of several sizes, each with a header, that a writer fills and a reader empties.
#include <stdbool.h>
#include <linux/bpf.h>
#include <bpf/bpf_helpers.h>

#define RING 64 // words of 4 bytes
#define BUSY 0x8000

enum kind { OPEN = 1, READ, CLOSE };

struct header {
    __u16 words; // with this one
    __u8 kind;
    __u8 cpu;
};

__u32 ring[RING];
__u32 head, tail; // in words, which never turn
struct {
    __u32 written, dropped, read;
    __u32 by_kind[4];
    __u64 bytes;
} stats;

static bool reserve(__u32 words, __u32 *at)
{
    if (head - tail + words > RING)
        return false;
    *at = head;
    head += words;
    return true;
}

static void put(__u32 at, __u32 word)
{
    ring[at % RING] = word;
}

static bool write_event(enum kind kind, __u32 cpu, const __u32 *data, __u32 count)
{
    struct header h = {.words = count + 1, .kind = kind, .cpu = cpu};
    __u32 at, word;

    if (!reserve(h.words, &at)) {
        stats.dropped++;
        return false;
    }
    for (__u32 k = 0; k < count; k++)
        put(at + 1 + k, data[k]);
    __builtin_memcpy(&word, &h, sizeof(word));
    put(at, word);
    stats.written++;
    return true;
}

static int read_event(void)
{
    struct header h;

    if (head == tail)
        return 0;
    __builtin_memcpy(&h, &ring[tail % RING], sizeof(h));
    stats.read++;
    stats.by_kind[h.kind & 3]++;
    for (__u32 k = 1; k < h.words && k < 8; k++)
        stats.bytes += ring[(tail + k) % RING] & 0xffff;
    tail += h.words;
    return 1;
}

static long turn(__u32 i, void *ctx)
{
    __u32 seed = *(__u32 *)ctx, x = (i + seed) * 2654435761u, data[6];

    for (int k = 0; k < 6; k++)
        data[k] = x >> k;
    switch ((x >> 20) % 5) {
    case 0:
        write_event(OPEN, x & 3, data, 2);
        break;
    case 1:
    case 2:
        write_event(READ, x & 3, data, 1 + (x >> 8) % 6);
        break;
    case 3:
        write_event(CLOSE, x & 3, NULL, 0);
        break;
    default:
        while (read_event())
            ;
    }
    return 0;
}

SEC("tracepoint")
int event_records(__u64 arg)
{
    __u32 seed = arg;

    bpf_loop(200, turn, &seed, 0);
    return stats.written - stats.read;
}

char LICENSE[] SEC("license") = "GPL";
