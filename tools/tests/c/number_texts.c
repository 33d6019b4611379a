// Texts of addresses and numbers to numbers, and back: `10.0.3.7`, `-42`, `0x1f`.
#include <linux/bpf.h>
#include <bpf/bpf_helpers.h>

static const char texts[6][16] = { "10.0.3.7", "255.255.255.0", "1.2.3", "192.168.001.9", "7.8.9.256", "..." };
__u32 addresses[6];
__u8 valid[6];
__s32 values[4];
const char numbers[4][8] = { "-42", "1999", "0x1f", "12ab" };
char printed[6][16];

static long parse_address(__u32 n, void *ctx)
{
    __u32 address = 0, part = 0, parts = 0, digits = 0;
    if (n >= 6)
        return 1;
    for (int k = 0; k < 16; k++) {
        char c = texts[n][k];
        if (c >= '0' && c <= '9') {
            part = part * 10 + (c - '0');
            digits++;
            if (part > 255)
                return 0;
        } else if (c == '.' || c == 0) {
            if (!digits)
                return 0;
            address = address << 8 | part;
            parts++;
            part = digits = 0;
            if (!c)
                break;
        } else {
            return 0;
        }
    }
    if (parts == 4) {
        addresses[n] = address;
        valid[n] = 1;
    }
    return 0;
}

static int parse_number(const char *s)
{
    int sign = 1, value = 0, base = 10, k = 0;
    if (s[0] == '-') {
        sign = -1;
        k = 1;
    } else if (s[0] == '0' && s[1] == 'x') {
        base = 16;
        k = 2;
    }
    for (; k < 8 && s[k]; k++) {
        int digit = s[k] >= 'a' ? s[k] - 'a' + 10 : s[k] - '0';
        if (digit < 0 || digit >= base)
            break;
        value = value * base + digit;
    }
    return sign * value;
}

static long print_address(__u32 n, void *ctx)
{
    int at = 0;
    if (n >= 6 || !valid[n])
        return 0;
    for (int part = 3; part >= 0; part--) {
        __u8 value = addresses[n] >> 8 * part;
        if (value >= 100)
            printed[n][at++ & 15] = '0' + value / 100;
        if (value >= 10)
            printed[n][at++ & 15] = '0' + value / 10 % 10;
        printed[n][at++ & 15] = '0' + value % 10;
        if (part)
            printed[n][at++ & 15] = '.';
    }
    return 0;
}

SEC("xdp")
int number_texts(void *ctx)
{
    bpf_loop(6, parse_address, NULL, 0);
    bpf_loop(6, print_address, NULL, 0);
    for (int n = 0; n < 4; n++)
        values[n] = parse_number(numbers[n]);
    return values[0] + values[1] + values[2] + values[3] + valid[0] + valid[1] + valid[2];
}
char LICENSE[] SEC("license") = "GPL";
