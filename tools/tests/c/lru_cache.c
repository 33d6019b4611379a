// A cache of four ways with the least recently used victim, in a map of structures.
#include <linux/bpf.h>
#include <bpf/bpf_helpers.h>

#define SETS 4
#define WAYS 4

struct entry {
    __u32 key;
    __u32 value;
    __u16 stamp;
    __u8 valid;
    __u8 hits;
};

struct {
    __uint(type, BPF_MAP_TYPE_ARRAY);
    __uint(max_entries, SETS * WAYS);
    __type(key, __u32);
    __type(value, struct entry);
} cache SEC(".maps");

__u32 hits, misses;
__u16 now;

static struct entry *entry_of(__u32 set, __u32 way)
{
    __u32 index = set * WAYS + way;
    return bpf_map_lookup_elem(&cache, &index);
}

static long get(__u32 i, void *ctx)
{
    __u32 key = i * i % 23, set = key % SETS;
    struct entry *victim = NULL;
    now++;
    for (int w = 0; w < WAYS; w++) {
        struct entry *e = entry_of(set, w);
        if (!e)
            return 1;
        if (e->valid && e->key == key) {
            e->stamp = now;
            e->hits++;
            hits++;
            return 0;
        }
        if (!victim || !e->valid || (victim->valid && e->stamp < victim->stamp))
            victim = e;
    }
    misses++;
    if (victim) {
        victim->key = key;
        victim->value = key * 1000;
        victim->stamp = now;
        victim->valid = 1;
        victim->hits = 0;
    }
    return 0;
}

SEC("xdp")
int lru_cache(void *ctx)
{
    bpf_loop(200, get, NULL, 0);
    return hits * 1000 + misses;
}
char LICENSE[] SEC("license") = "GPL";
