// Apple's PackBits: runs and literals with a signed header byte, there and back.
#include <linux/bpf.h>
#include <bpf/bpf_helpers.h>

#define SIZE 48

__u8 input[SIZE];
__s8 packed[2 * SIZE];
__u8 output[SIZE];
int packed_length;

static int pack(void)
{
    int out = 0, at = 0;

    while (at < SIZE) {
        int run = 1;
        while (at + run < SIZE && run < 128 && input[at + run] == input[at])
            run++;
        if (run > 1) {
            packed[out++] = 1 - run;
            packed[out++] = input[at];
            at += run;
            continue;
        }
        int start = out++;
        int count = 0;
        while (at < SIZE && count < 128) {
            if (at + 1 < SIZE && input[at] == input[at + 1])
                break;
            packed[out++] = input[at++];
            count++;
        }
        packed[start] = count - 1;
    }
    return out;
}

static int unpack(int length)
{
    int out = 0, at = 0;

    while (at < length) {
        signed char header = packed[at++];
        if (header >= 0) {
            for (int i = 0; i <= header && out < SIZE; i++)
                output[out++] = packed[at++];
        } else if (header != -128) {
            for (int i = 0; i < 1 - header && out < SIZE; i++)
                output[out++] = packed[at];
            at++;
        }
    }
    return out;
}

SEC("xdp")
int pack_bits(__u32 arg)
{
    for (int i = 0; i < SIZE; i++)
        input[i] = (i / (1 + (arg & 7))) % 5 == 2 ? i : i / 6;
    packed_length = pack();
    int length = unpack(packed_length);
    int wrong = 0;
    for (int i = 0; i < SIZE; i++)
        wrong += input[i] != output[i];
    return length * 100 + wrong;
}
