// Records that are packed, so that their words lie at odd places, and that are made from one another.
#include <linux/bpf.h>
#include <bpf/bpf_helpers.h>

struct record {
    __u8 kind;
    __u32 length;
    __u16 id;
    __u64 stamp;
} __attribute__((packed));

struct record records[6];
__u64 total_length, latest;
__u16 ids[6];

static long write_one(__u32 i, void *ctx)
{
    struct record *r = &records[i];
    if (i >= 6)
        return 1;
    r->kind = i | 0x80;
    r->length = 1000 * i + 17;
    r->id = 0xabc0 + i;
    r->stamp = 0x1122334455667788ULL * (i + 1);
    return 0;
}

static long read_one(__u32 i, void *ctx)
{
    if (i >= 6)
        return 1;
    total_length += records[i].length;
    ids[i] = records[5 - i].id;
    if (records[i].stamp > latest)
        latest = records[i].stamp;
    return 0;
}

SEC("xdp")
int packed_records(void *ctx)
{
    bpf_loop(6, write_one, NULL, 0);
    records[2].length += 5 + (__u32)(__u64)ctx;
    bpf_loop(6, read_one, NULL, 0);
    return total_length;
}
char LICENSE[] SEC("license") = "GPL";
