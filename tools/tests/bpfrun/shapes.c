// Variables of many types. Nothing but `total` and `hist` changes.
#include "bpf.h"

typedef unsigned char __u8;
typedef unsigned short __u16;
enum color { RED, GREEN = 5, BLUE };
struct inner {
    __u8 a;
    signed char b;
    short c;
};
struct outer {
    struct inner in[2];
    int x;
    unsigned f : 3, g : 5;
    int h : 6;
    enum color color;
    _Bool yes;
    union {
        __u32 whole;
        __u16 half[2];
    } u;
    void *pointer;
    char name[8];
};

struct outer shape = {{{1, -2, -300}, {4, 5, 6}}, -7, 5, 17, -3, GREEN, 1, {0x10002}, 0, "hey"};
int grid[2][3] = {{1, 2, 3}, {-4, -5, -6}};
__u8 word[8] = "worst";
__u8 flags[4] = {65};
char empty[4] = "";
__u64 hist[16];
__u64 total = 1;
long balance = -5;

static long count(__u32 i, void *ctx) {
    hist[i & 15] += 1;
    __sync_fetch_and_add(&total, i);
    return 0;
}

SEC("xdp") long shapes(__u64 argument) {
    bpf_loop(100, count, 0, 0);
    return (long)argument - 10;
}
