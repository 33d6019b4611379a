// A histogram: 1,000 pseudo-random numbers are counted in 16 buckets. The loop's callback looks its bucket up, as BPF
// programs must, and adds 1 to it at once; the buckets are the elements of map 0.
typedef unsigned int u32;
typedef unsigned long long u64;

struct map;
extern struct map buckets;
static void *(*lookup)(struct map *map, const u32 *key) = (void *)1;
static long (*loop)(u32 count, long (*callback)(u32 index, void *ctx), void *ctx, u64 flags) = (void *)181;

// The finalizer of MurmurHash3.
static u64 mixed(u64 x) {
    x ^= x >> 33;
    x *= 0xff51afd7ed558ccdULL;
    x ^= x >> 33;
    x *= 0xc4ceb9fe1a85ec53ULL;
    return x ^ x >> 33;
}

__attribute__((noinline)) long count(u32 index, void *ctx) {
    u32 key = mixed(index) & 15;
    u64 *bucket = lookup(&buckets, &key);
    if (bucket)
        __sync_fetch_and_add(bucket, 1);
    return 0;
}

__attribute__((section("main"))) long main_(u64 argument) {
    return loop(1000, count, 0, 0);
}
