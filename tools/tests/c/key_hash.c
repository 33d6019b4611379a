// A key on the stack that is hashed byte by byte, and copied whole.
#include <linux/bpf.h>
#include <bpf/bpf_helpers.h>

struct key {
    __u32 saddr;
    __u16 port;
    __u8 protocol;
    __u8 tag;
};

struct key keys[32];
__u32 hashes[32];
__u16 twins;

static __u32 fnv(const void *data, __u32 length)
{
    const __u8 *bytes = data;
    __u32 h = 2166136261u;
    for (__u32 k = 0; k < length; k++)
        h = (h ^ bytes[k]) * 16777619u;
    return h;
}

static long make(__u32 i, void *ctx)
{
    struct key key = {
        .saddr = 0x0a000000 + i % 6,
        .port = 80 + i % 4,
        .protocol = i & 1 ? 6 : 17,
    };
    if (i >= 32)
        return 1;
    hashes[i] = fnv(&key, sizeof(key));
    __builtin_memcpy(&keys[i], &key, sizeof(key));
    for (__u32 k = 0; k < i; k++)
        if (keys[k].saddr == key.saddr && keys[k].port == key.port && keys[k].protocol == key.protocol)
            twins++;
    return 0;
}

SEC("xdp")
int key_hash(void *ctx)
{
    bpf_loop(32, make, NULL, 0);
    return hashes[31] ^ twins;
}
char LICENSE[] SEC("license") = "GPL";
