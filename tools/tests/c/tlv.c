// Options of type, length and value in a packet's bytes: the greatest segment, the window's scale, the time stamps.
#include <linux/bpf.h>
#include <bpf/bpf_helpers.h>

#define LENGTH 40

const volatile __u8 options[LENGTH] = {
    2, 4, 0x05, 0xb4, 1, 3, 3, 7, 4, 2, 8, 10, 0x12, 0x34, 0x56, 0x78, 0x9a, 0xbc, 0xde, 0xf0, 254, 3, 9, 0,
};

struct parsed {
    __u16 mss;
    __u8 scale;
    __u8 sack : 1, stamps : 1, bad : 1;
    __u32 value, echo;
};
struct parsed result;

struct cursor {
    __u8 at;
    struct parsed p;
};

static long option(__u32 i, void *ctx)
{
    struct cursor *c = ctx;
    __u8 kind, size;
    if (c->at >= LENGTH)
        return 1;
    kind = options[c->at];
    if (kind == 0)
        return 1;
    if (kind == 1) {
        c->at++;
        return 0;
    }
    if (c->at + 1 >= LENGTH) {
        c->p.bad = 1;
        return 1;
    }
    size = options[c->at + 1];
    if (size < 2 || c->at + size > LENGTH) {
        c->p.bad = 1;
        return 1;
    }
    switch (kind) {
    case 2:
        if (size == 4)
            c->p.mss = options[c->at + 2] << 8 | options[c->at + 3];
        break;
    case 3:
        if (size == 3)
            c->p.scale = options[c->at + 2];
        break;
    case 4:
        c->p.sack = 1;
        break;
    case 8:
        if (size != 10)
            break;
        c->p.stamps = 1;
        for (int k = 0; k < 4; k++) {
            c->p.value = c->p.value << 8 | options[c->at + 2 + k];
            c->p.echo = c->p.echo << 8 | options[c->at + 6 + k];
        }
        break;
    }
    c->at += size;
    return 0;
}

SEC("xdp")
int tlv(void *ctx)
{
    struct cursor c = {};
    bpf_loop(LENGTH, option, &c, 0);
    result = c.p;
    return c.at << 16 | c.p.mss;
}
char LICENSE[] SEC("license") = "GPL";
