// One callback with two contexts of main's frame, by turns.
#include "bpf.h"

struct walker {
    short x, y;
    unsigned char steps;
};

struct place {
    short x, y;
};
struct place places[2];

static long walk(__u32 i, void *ctx) {
    struct walker *w = ctx;
    switch ((i + w->steps) & 3) {
    case 0: w->x++; break;
    case 1: w->y += 2; break;
    case 2: w->x -= 3; break;
    default: w->y--;
    }
    w->steps++;
    return w->x < -40;
}

SEC("xdp") long two_contexts(__u64 argument) {
    struct walker left = {0, 0, 0}, right = {10, -10, 1};
    long taken = 0;
    for (int turn = 0; turn < 3; turn++) {
        taken += bpf_loop(7, walk, &left, 0);
        taken += bpf_loop(9, walk, &right, 0);
    }
    places[0].x = left.x;
    places[0].y = left.y;
    places[1].x = right.x;
    places[1].y = right.y;
    return taken;
}
