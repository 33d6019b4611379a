// A list of free nodes and a list in order, by indexes of bytes and by pointers into the array.
#include "bpf.h"

#define NODES 24
#define NONE 255

struct node {
    short value;
    unsigned char next;
};

struct node nodes[NODES];
unsigned char head = NONE, free_head;
short ordered[NODES];

static struct node *take(unsigned char *which) {
    if (free_head == NONE || free_head >= NODES)
        return 0;
    *which = free_head;
    free_head = nodes[free_head].next;
    return &nodes[*which];
}

static long insert(__u32 i, void *ctx) {
    unsigned char mine;
    unsigned char *link = &head;
    struct node *n = take(&mine);
    if (!n)
        return 1;
    n->value = (short)(i * 7717 % 401) - 200;
    for (int k = 0; k < NODES && *link != NONE && nodes[*link].value < n->value; k++)
        link = &nodes[*link].next;
    n->next = *link;
    *link = mine;
    return 0;
}

SEC("xdp") long linked_list(__u64 argument) {
    unsigned char at;
    long taken;
    for (int k = 0; k < NODES; k++)
        nodes[k].next = k + 1 < NODES ? k + 1 : NONE;
    taken = bpf_loop(100, insert, 0, 0);
    at = head;
    for (int k = 0; k < NODES && at < NODES; k++) {
        ordered[k] = nodes[at].value;
        at = nodes[at].next;
    }
    return taken * 1000 + ordered[0];
}
