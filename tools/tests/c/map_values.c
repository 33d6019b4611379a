// Statistics for each protocol in a map whose values are structures.
#include <linux/bpf.h>
#include <bpf/bpf_helpers.h>

struct stat {
    __u64 packets;
    __u64 bytes;
    __u32 largest;
    __u16 ports[4];
    __u8 seen;
};

struct {
    __uint(type, BPF_MAP_TYPE_ARRAY);
    __uint(max_entries, 16);
    __type(key, __u32);
    __type(value, struct stat);
} stats SEC(".maps");

struct {
    __uint(type, BPF_MAP_TYPE_ARRAY);
    __uint(max_entries, 1);
    __type(key, __u32);
    __type(value, __u32);
} config SEC(".maps");

static long packet(__u32 i, void *ctx)
{
    __u32 protocol = i * 5 % 18, length = 60 + i * 37 % 1400;
    struct stat *s = bpf_map_lookup_elem(&stats, &protocol);
    if (!s)
        return 0;
    s->packets++;
    s->bytes += length;
    if (length > s->largest)
        s->largest = length;
    s->ports[i & 3] = 1000 + i;
    s->seen = 1;
    return 0;
}

SEC("xdp")
int map_values(void *ctx)
{
    __u32 zero = 0, five = 5;
    __u32 *packets = bpf_map_lookup_elem(&config, &zero);
    struct stat *s;
    if (!packets)
        return -1;
    *packets = 150 + ((__u64)ctx & 31);
    bpf_loop(*packets, packet, NULL, 0);
    s = bpf_map_lookup_elem(&stats, &five);
    return s ? s->bytes : -2;
}
char LICENSE[] SEC("license") = "GPL";
