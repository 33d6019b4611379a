// Base64 of a text, and back.
#include "bpf.h"

typedef unsigned char u8;

const char alphabet[] = "ABCDEFGHIJKLMNOPQRSTUVWXYZabcdefghijklmnopqrstuvwxyz0123456789+/";
u8 input[31] = "Many hands make light work.";
char encoded[44];
u8 decoded[33];
int invalid;

static long encode(__u32 i, void *ctx) {
    unsigned int length = *(unsigned int *)ctx, at = 3 * i;
    unsigned int word;
    if (at >= length || at + 2 >= sizeof(input) || 4 * i + 3 >= sizeof(encoded))
        return 1;
    word = input[at] << 16;
    if (at + 1 < length)
        word |= input[at + 1] << 8;
    if (at + 2 < length)
        word |= input[at + 2];
    encoded[4 * i] = alphabet[word >> 18 & 63];
    encoded[4 * i + 1] = alphabet[word >> 12 & 63];
    encoded[4 * i + 2] = at + 1 < length ? alphabet[word >> 6 & 63] : '=';
    encoded[4 * i + 3] = at + 2 < length ? alphabet[word & 63] : '=';
    return 0;
}

static int value_of(char c) {
    if (c >= 'A' && c <= 'Z')
        return c - 'A';
    if (c >= 'a' && c <= 'z')
        return c - 'a' + 26;
    if (c >= '0' && c <= '9')
        return c - '0' + 52;
    if (c == '+')
        return 62;
    if (c == '/')
        return 63;
    return -1;
}

static long decode(__u32 i, void *ctx) {
    unsigned int word = 0;
    if (i >= sizeof(encoded) / 4 || !encoded[4 * i])
        return 1;
    for (int k = 0; k < 4; k++) {
        char c = encoded[4 * i + k];
        int v = c == '=' ? 0 : value_of(c);
        if (v < 0) {
            invalid++;
            return 1;
        }
        word = word << 6 | v;
    }
    for (int k = 0; k < 3; k++)
        decoded[3 * i + k] = word >> (16 - 8 * k);
    return 0;
}

SEC("xdp") long base64(__u64 argument) {
    unsigned int length = 27 + argument % 3;
    long blocks;
    input[27] = '!';
    bpf_loop(11, encode, &length, 0);
    blocks = bpf_loop(11, decode, 0, 0);
    return blocks * 1000 + invalid;
}
