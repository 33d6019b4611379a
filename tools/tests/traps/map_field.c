// An array within the value of a map, by an index that isn't tested.
#include <linux/bpf.h>
#include <bpf/bpf_helpers.h>

struct value {
    __u16 counts[4];
    __u32 total;
};

struct {
    __uint(type, BPF_MAP_TYPE_ARRAY);
    __uint(max_entries, 4);
    __type(key, __u32);
    __type(value, struct value);
} values SEC(".maps");

static long count(__u32 i, void *ctx)
{
    __u32 key = i & 3, kind = i / *(__u32 *)ctx;
    struct value *v = bpf_map_lookup_elem(&values, &key);
    if (!v)
        return 1;
    v->counts[kind] += i; // trap
    v->total++;
    return 0;
}

SEC("xdp")
int map_field(void *ctx)
{
    __u32 width = (__u64)ctx ? 4 : 16;
    return bpf_loop(64, count, &width, 0);
}
char LICENSE[] SEC("license") = "GPL";
