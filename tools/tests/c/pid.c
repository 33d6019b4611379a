// A PID controller in fixed point that drives a plant of first order to a target.
#include <linux/bpf.h>
#include <bpf/bpf_helpers.h>

#define STEPS 64

struct pid {
    __s32 kp, ki, kd;
    __s64 integral;
    __s32 previous;
    __s32 target;
};

__s32 trace[STEPS];
__s16 outputs[STEPS];
__s32 plant;

static __always_inline __s64 clamp(__s64 x, __s64 low, __s64 high)
{
    return x < low ? low : x > high ? high : x;
}

static long control(__u32 i, void *ctx)
{
    struct pid *c = ctx;
    __s32 error = c->target - plant;
    __s64 out;

    c->integral = clamp(c->integral + error, -20000, 20000);
    out = (__s64)c->kp * error + c->ki * c->integral + (__s64)c->kd * (error - c->previous);
    out = clamp(out >> 8, -3000, 3000);
    c->previous = error;
    plant += (__s32)(out - plant) >> 3;
    if (i < STEPS) {
        trace[i] = plant;
        outputs[i] = out;
    }
    if (i == STEPS / 2)
        c->target = -c->target;
    return 0;
}

SEC("xdp")
int pid(void *ctx)
{
    struct pid c = { .kp = 300, .ki = 20, .kd = 50, .target = 1000 };
    bpf_loop(STEPS, control, &c, 0);
    return plant;
}
char LICENSE[] SEC("license") = "GPL";
