// Least ways from one node, by the nearest open node again and again.
#include "bpf.h"

#define NODES 10
#define FAR 0x7fff

unsigned short edges[NODES][NODES];
unsigned short distance[NODES];
_Bool done[NODES];
signed char before[NODES];

static long settle(__u32 round, void *ctx) {
    int nearest = -1;
    for (int n = 0; n < NODES; n++)
        if (!done[n] && (nearest < 0 || distance[n] < distance[nearest]))
            nearest = n;
    if (nearest < 0 || distance[nearest] == FAR)
        return 1;
    done[nearest] = 1;
    for (int n = 0; n < NODES; n++) {
        unsigned int way = distance[nearest] + edges[nearest][n];
        if (edges[nearest][n] && way < distance[n]) {
            distance[n] = way;
            before[n] = nearest;
        }
    }
    return 0;
}

SEC("xdp") long dijkstra(__u64 argument) {
    unsigned int start = argument % NODES;
    for (int a = 0; a < NODES; a++) {
        distance[a] = FAR;
        before[a] = -1;
        for (int b = 0; b < NODES; b++)
            if (a != b && (a * 7 + b * 3) % 4 == 0)
                edges[a][b] = 1 + (a * 31 + b * 17) % 23;
    }
    distance[start] = 0;
    return bpf_loop(NODES, settle, 0, 0) * 1000 + distance[(start + 5) % NODES];
}
