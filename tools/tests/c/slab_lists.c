// Objects of a slab in doubly linked lists by pointers, moved between a free list and a list by age.
#include <linux/bpf.h>
#include <bpf/bpf_helpers.h>

struct object {
    struct object *next, *previous;
    __u32 key, hits;
};

struct list {
    struct object *first, *last;
    __u32 length;
};

#define OBJECTS 12

struct object slab[OBJECTS];
struct list unused, used;
__u32 found, evicted;

static void append(struct list *l, struct object *o)
{
    o->next = NULL;
    o->previous = l->last;
    if (l->last)
        l->last->next = o;
    else
        l->first = o;
    l->last = o;
    l->length++;
}

static void unlink(struct list *l, struct object *o)
{
    if (o->previous)
        o->previous->next = o->next;
    else
        l->first = o->next;
    if (o->next)
        o->next->previous = o->previous;
    else
        l->last = o->previous;
    l->length--;
}

static long touch(__u32 i, void *ctx)
{
    __u32 key = (i * i + *(__u32 *)ctx) % 23;
    struct object *o = used.first;

    for (int n = 0; n < OBJECTS && o; n++) {
        if (o->key == key)
            break;
        o = o->next;
    }
    if (o) {
        found++;
        unlink(&used, o);
    } else if (unused.first) {
        o = unused.first;
        unlink(&unused, o);
        o->hits = 0;
    } else {
        o = used.first;
        if (!o)
            return 1;
        unlink(&used, o);
        evicted++;
        o->hits = 0;
    }
    o->key = key;
    o->hits++;
    append(&used, o);
    return 0;
}

SEC("xdp")
int lists(__u64 arg)
{
    __u32 seed = arg;
    __u32 sum = 0;

    for (int i = 0; i < OBJECTS; i++)
        append(&unused, &slab[i]);
    bpf_loop(80, touch, &seed, 0);
    for (int i = 0; i < OBJECTS; i++) {
        sum = sum * 31 + slab[i].key * slab[i].hits;
        slab[i].next = slab[i].previous = NULL;
    }
    used.first = used.last = unused.first = unused.last = NULL;
    return found * 1000 + evicted + (sum & 1);
}
