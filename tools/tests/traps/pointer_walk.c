// A text that is read up to its end mark, which isn't there for one argument.
#include "bpf.h"

char text[16] = "0123456789";
int length;

static long measure(__u32 i, void *ctx) {
    char **at = ctx;
    if (!**at) // trap
        return 1;
    (*at)++;
    length++;
    return 0;
}

SEC("xdp") long pointer_walk(__u64 argument) {
    char *at = text;
    if (argument)
        for (int k = 0; k < 16; k++)
            text[k] = 'x';
    bpf_loop(1000, measure, &at, 0);
    return length;
}
