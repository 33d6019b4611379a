// A hundred steps of two loops from a for in main: particles that fall and bounce.
#include <linux/bpf.h>
#include <bpf/bpf_helpers.h>

#define PARTICLES 24

struct particle {
    int x, y, vx, vy;
    _Bool asleep;
};

struct particle particles[PARTICLES];
int bounces, sleeping;

static long move(__u32 i, void *ctx)
{
    struct particle *p = &particles[i % PARTICLES];
    int gravity = *(int *)ctx;

    if (p->asleep)
        return 0;
    p->vy -= gravity;
    p->x += p->vx;
    p->y += p->vy;
    if (p->y < 0) {
        p->y = -p->y;
        p->vy = -p->vy * 3 >> 2;
        bounces++;
        if (p->vy < 12)
            p->asleep = 1;
    }
    if (p->x < 0 || p->x >= 1000)
        p->vx = -p->vx;
    return 0;
}

static long census(__u32 i, void *ctx)
{
    int *count = ctx;

    if (i < PARTICLES && particles[i].asleep)
        (*count)++;
    return 0;
}

SEC("xdp")
int simulate(__u64 arg)
{
    int gravity = 3;

    for (int i = 0; i < PARTICLES; i++) {
        particles[i].x = i * 40;
        particles[i].y = 500 + (i * 97 + (int)arg) % 300u;
        particles[i].vx = i - 12;
    }
    for (int step = 0; step < 100; step++) {
        bpf_loop(PARTICLES, move, &gravity, 0);
        if (step % 10 == 9) {
            sleeping = 0;
            bpf_loop(PARTICLES, census, &sleeping, 0);
        }
    }
    return bounces * 100 + sleeping;
}
