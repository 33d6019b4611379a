// A request that is tested step by step, with a way out by goto, and a loop that ends at its foot.
#include <linux/bpf.h>
#include <bpf/bpf_helpers.h>

enum reason { OK, TOO_SHORT, BAD_MAGIC, BAD_SUM, TOO_MANY };

struct request {
    __u16 magic;
    __u8 length;
    __u8 sum;
    __u8 body[12];
};

struct request requests[8];
enum reason results[8];
__u32 by_reason[5];
static __u32 in_use;

static enum reason check(const struct request *r)
{
    enum reason reason = TOO_MANY;
    __u8 sum = 0;
    int k = 0;

    if (in_use >= 6)
        goto out;
    in_use++;
    reason = TOO_SHORT;
    if (r->length < 2)
        goto release;
    reason = BAD_MAGIC;
    if (r->magic != 0xcafe)
        goto release;
    do {
        sum += r->body[k];
        k++;
    } while (k < r->length && k < 12);
    reason = sum == r->sum ? OK : BAD_SUM;
    if (reason == OK)
        goto out;
release:
    in_use--;
out:
    by_reason[reason]++;
    return reason;
}

static long one(__u32 i, void *ctx)
{
    static __u8 calls;
    calls++;
    results[i & 7] = check(&requests[i & 7]);
    return calls > 20;
}

SEC("xdp")
int goto_cleanup(void *ctx)
{
    for (int i = 0; i < 8; i++) {
        struct request *r = &requests[i];
        r->magic = i == 3 ? 0xdead : 0xcafe;
        r->length = i * 3 % 13;
        for (int k = 0; k < 12; k++) {
            r->body[k] = i * 16 + k;
            if (k < r->length)
                r->sum += r->body[k];
        }
        if (i == 5)
            r->sum++;
    }
    return bpf_loop(24, one, NULL, 0) * 1000 + by_reason[OK] * 100 + by_reason[TOO_MANY];
}
char LICENSE[] SEC("license") = "GPL";
