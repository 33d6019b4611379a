// Structures and many numbers, to functions that aren't inlined: there are five registers for arguments, and one for a result.
#include <linux/bpf.h>
#include <bpf/bpf_helpers.h>

struct pair { __s64 low, high; };
struct matrix { __s64 at[2][2]; };
struct matrix power;
struct pair range;
__s64 total;

__attribute__((noinline)) struct matrix times(struct matrix left, struct matrix right) {
    struct matrix product = {};
    for (int i = 0; i < 2; i++)
        for (int j = 0; j < 2; j++)
            for (int k = 0; k < 2; k++)
                product.at[i][j] += left.at[i][k] * right.at[k][j];
    left.at[0][0] = 0;
    return product;
}

static __attribute__((noinline)) struct pair widened(struct pair old, __s64 value) {
    if (value < old.low)
        old.low = value;
    if (value > old.high)
        old.high = value;
    return old;
}

static __attribute__((noinline)) __s64 mixed(int a, long b, char c, short d, unsigned e, long f, struct pair g) {
    return a + b * 2 + c * 3 + d * 5 + e * 7 + f * 11 + g.high - g.low;
}

SEC("xdp") long by_value(long x) {
    struct matrix step = {{{1, 1}, {1, 0}}};
    power = step;
    for (int i = 0; i < 5; i++) {
        power = times(power, step);
        range = widened(range, power.at[0][1] - (x & 255));
    }
    total = mixed(x, 2, 'c', 4, 5, x & 7, range) + mixed(1, x, 3, 4, x, 6, range);
    return total;
}
