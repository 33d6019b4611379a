// Least distances of all pairs of nodes, by Floyd and Warshall, in bytes.
#include <linux/bpf.h>
#include <bpf/bpf_helpers.h>

#define NODES 12
#define FAR 255

__u8 distance[NODES][NODES];

static long through(__u32 k, void *ctx)
{
    if (k >= NODES)
        return 1;
    for (int i = 0; i < NODES; i++) {
        for (int j = 0; j < NODES; j++) {
            __u32 sum = distance[i][k] + distance[k][j];
            if (sum < distance[i][j])
                distance[i][j] = sum;
        }
    }
    return 0;
}

SEC("xdp")
int floyd(void *ctx)
{
    int total = 0;
    for (int i = 0; i < NODES; i++)
        for (int j = 0; j < NODES; j++)
            distance[i][j] = i == j ? 0 : FAR;
    for (int i = 0; i < NODES; i++) {
        distance[i][(i + 1) % NODES] = 3 + i;
        distance[i][(i * 5 + 2) % NODES] = 7;
    }
    bpf_loop(NODES, through, NULL, 0);
    for (int j = 0; j < NODES; j++)
        total += distance[0][j];
    return total;
}
char LICENSE[] SEC("license") = "GPL";
