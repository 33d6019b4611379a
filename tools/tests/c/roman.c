// Roman numerals from tables of string constants.
#include <linux/bpf.h>
#include <bpf/bpf_helpers.h>

struct numeral {
    __u16 value;
    char text[4];
};

static const struct numeral numerals[13] = {
    { 1000, "M" }, { 900, "CM" }, { 500, "D" }, { 400, "CD" }, { 100, "C" }, { 90, "XC" }, { 50, "L" },
    { 40, "XL" },  { 10, "X" },   { 9, "IX" },  { 5, "V" },    { 4, "IV" },  { 1, "I" },
};

char out[8][16];
__u16 years[8] = { 1994, 2026, 1444, 3888 & 0x7ff, 49, 1, 999, 1066 };

struct writer {
    __u32 line;
    __u32 left;
    __u8 at;
};

static long digit(__u32 i, void *ctx)
{
    struct writer *w = ctx;
    if (w->left == 0 || w->line >= 8)
        return 1;
    for (int k = 0; k < 13; k++) {
        if (w->left >= numerals[k].value) {
            w->left -= numerals[k].value;
            for (int c = 0; c < 4; c++) {
                if (!numerals[k].text[c])
                    break;
                if (w->at < 15)
                    out[w->line][w->at++] = numerals[k].text[c];
            }
            return 0;
        }
    }
    return 1;
}

SEC("xdp")
int roman(void *ctx)
{
    int letters = 0;
    for (__u32 line = 0; line < 8; line++) {
        struct writer w = { .line = line, .left = years[line] };
        bpf_loop(20, digit, &w, 0);
        letters += w.at;
    }
    return letters;
}
char LICENSE[] SEC("license") = "GPL";
