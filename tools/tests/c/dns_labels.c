// The labels of a DNS name: lengths, then letters in lower case with dots between.
#include <linux/bpf.h>
#include <bpf/bpf_helpers.h>

#define MAX 64

const __u8 query[MAX] = "\3wWw\7exAMPle\3cO\0";
char name[MAX];
__u8 labels[8];

struct parser {
    __u8 left;
    __u8 label;
    __u16 out;
    int error;
};

static long parse(__u32 i, void *ctx)
{
    struct parser *p = ctx;
    __u8 c;
    if (i >= MAX)
        return 1;
    c = query[i];
    if (p->left == 0) {
        if (c == 0)
            return 1;
        if (c > 63 || p->label >= 8) {
            p->error = 1;
            return 1;
        }
        if (p->label)
            name[p->out++ & (MAX - 1)] = '.';
        labels[p->label] = c;
        p->label++;
        p->left = c;
        return 0;
    }
    if (c >= 'A' && c <= 'Z')
        c += 'a' - 'A';
    name[p->out & (MAX - 1)] = c;
    p->out++;
    p->left--;
    return 0;
}

SEC("socket")
int dns_labels(void *skb)
{
    struct parser p = {};
    bpf_loop(MAX, parse, &p, 0);
    return p.error ? -1 : p.out << 8 | p.label;
}
char LICENSE[] SEC("license") = "GPL";
