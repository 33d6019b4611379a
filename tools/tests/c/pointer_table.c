// A table of pointers to texts and to counters, made by the compiler.
#include <linux/bpf.h>
#include <bpf/bpf_helpers.h>

struct verb {
    const char *name;
    __u32 *count;
    __u8 length;
};

static __u32 gets, puts, heads;
static const struct verb verbs[3] = {
    { "GET", &gets, 3 },
    { "PUT", &puts, 3 },
    { "HEAD", &heads, 4 },
};
char requests[6][8] = { "GET /", "HEAD /", "PUT /a", "GET /b", "POST /", "HEAD" };
__u8 kinds[6];
__u32 unknown;

static long match(__u32 i, void *ctx)
{
    if (i >= 6)
        return 1;
    for (int v = 0; v < 3; v++) {
        int same = 1;
        for (int k = 0; k < 4; k++)
            if (k < verbs[v].length && requests[i][k] != verbs[v].name[k])
                same = 0;
        if (same) {
            (*verbs[v].count)++;
            kinds[i] = v + 1;
            return 0;
        }
    }
    unknown++;
    return 0;
}

SEC("xdp")
int pointer_table(void *ctx)
{
    bpf_loop(6, match, NULL, 0);
    return gets * 1000 + puts * 100 + heads * 10 + unknown;
}
char LICENSE[] SEC("license") = "GPL";
