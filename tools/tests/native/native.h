/* What the machine itself does for the helpers of BPF: `bpf_loop` is a `for`, and a map is its values in memory. */
#ifndef NATIVE_H
#define NATIVE_H
int printf(const char *format, ...); /* alone, so that a program may have names that other headers have too */
void *calloc(unsigned long count, unsigned long size);
void exit(int status);
unsigned long long strtoull(const char *text, char **end, int base);

#define NATIVE_MAPS 64
#define NATIVE_ITERATIONS 8388608

struct native_map {
    const void *map;
    unsigned int entries;
    unsigned long size;
    char *values;
};
static struct native_map native_maps[NATIVE_MAPS];
static unsigned int native_count;

static void native_add_map(const void *map, unsigned int entries, unsigned long size) {
    struct native_map *added = &native_maps[native_count++];
    added->map = map;
    added->entries = entries;
    added->size = size;
    added->values = calloc(entries, size);
}

static struct native_map *native_map_of(const void *map) {
    for (unsigned int k = 0; k < native_count; k++)
        if (native_maps[k].map == map)
            return &native_maps[k];
    exit(1);
}

static void *bpf_map_lookup_elem(void *map, const void *key) {
    struct native_map *found = native_map_of(map);
    unsigned int index = *(const unsigned int *)key;
    return index < found->entries ? found->values + index * found->size : 0;
}

static long bpf_loop(unsigned int count, void *callback, void *ctx, unsigned long long flags) {
    long (*call)(unsigned int, void *) = (long (*)(unsigned int, void *))callback;
    if (flags)
        return -22;
    if (count > NATIVE_ITERATIONS)
        return -7;
    for (unsigned int i = 0; i < count; i++)
        if ((int)call(i, ctx))
            return (long)i + 1;
    return count;
}

static void native_print(const char *name, const void *bytes, unsigned long size) {
    printf("%s ", name);
    for (unsigned long k = 0; k < size; k++)
        printf("%02x", ((const unsigned char *)bytes)[k]);
    printf("\n");
}

static void native_print_map(const char *name, const void *map) {
    const struct native_map *found = native_map_of(map);
    native_print(name, found->values, found->entries * found->size);
}
#endif
