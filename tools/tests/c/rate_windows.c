// Requests for each client in windows of time; those above the limit are blocked for a while.
#include <stdbool.h>
#include <linux/bpf.h>
#include <bpf/bpf_helpers.h>

#define CLIENTS 10
#define LIMIT 6
#define WINDOW 50

struct client {
    __u64 window;
    __u64 blocked_until;
    __u16 requests;
    bool blocked;
};

struct client clients[CLIENTS];
__u32 allowed, refused;
static __u32 blocks;

static bool admit(struct client *c, __u64 now)
{
    if (c->blocked) {
        if (now < c->blocked_until)
            return false;
        c->blocked = false;
        c->requests = 0;
        c->window = now;
    }
    if (now - c->window >= WINDOW) {
        c->window = now;
        c->requests = 0;
    }
    if (++c->requests > LIMIT) {
        c->blocked = true;
        c->blocked_until = now + 3 * WINDOW;
        blocks++;
        return false;
    }
    return true;
}

static long request(__u32 i, void *ctx)
{
    __u32 who = (i * 13 ^ i >> 2) % CLIENTS;
    if (i % 5 == 0)
        who = 3;
    if (admit(&clients[who], i * 2))
        allowed++;
    else
        refused++;
    return 0;
}

SEC("xdp")
int rate_windows(void *ctx)
{
    bpf_loop(400, request, NULL, 0);
    return refused << 8 | blocks;
}
char LICENSE[] SEC("license") = "GPL";
