// Devices with flags that are bool and states that are bytes.
#include <stdbool.h>
#include <linux/bpf.h>
#include <bpf/bpf_helpers.h>

#define DEVICES 20

enum state { DOWN, STARTING, UP, FAILED };

struct device {
    bool enabled;
    bool carrier;
    __u8 state;
    __s8 score;
};

struct device devices[DEVICES];
bool any_failed, all_up = true;
__u8 states[4];
volatile __u8 rounds;

static bool healthy(const struct device *d)
{
    return d->enabled && d->carrier && d->score > -3;
}

static long advance(__u32 i, void *ctx)
{
    struct device *d;
    if (i >= DEVICES)
        return 1;
    d = &devices[i];
    d->carrier = (i + rounds) % 4 != 0;
    d->score += d->carrier ? 1 : -2;
    switch (d->state) {
    case DOWN:
        if (d->enabled)
            d->state = STARTING;
        break;
    case STARTING:
        d->state = healthy(d) ? UP : FAILED;
        break;
    case UP:
        if (!healthy(d))
            d->state = DOWN;
        break;
    case FAILED:
        d->enabled = false;
        d->state = DOWN;
        break;
    }
    return 0;
}

SEC("xdp")
int run_devices(void *ctx)
{
    for (int i = 0; i < DEVICES; i++)
        devices[i].enabled = i % 3 != 2;
    for (int r = 0; r < 6; r++) {
        bpf_loop(DEVICES, advance, NULL, 0);
        rounds++;
    }
    for (int i = 0; i < DEVICES; i++) {
        states[devices[i].state & 3]++;
        any_failed |= devices[i].state == FAILED;
        all_up = all_up && devices[i].state == UP;
    }
    return states[UP] * 100 + states[DOWN];
}
char LICENSE[] SEC("license") = "GPL";
