// Knuth, Morris and Pratt: the table of a word's borders, and its places in a text.
#include "bpf.h"

#define WORD 6
#define TEXT 64

const char word[WORD + 1] = "abacab";
char text[TEXT + 1] = "abacabacabaabacababacababcabacabdabacabacabab";
unsigned char borders[WORD];
unsigned char ends[TEXT];
int matches;

static long scan(__u32 i, void *ctx) {
    unsigned int *matched = ctx;
    unsigned int m = *matched;
    if (!text[i])
        return 1;
    while (m > 0 && (m >= WORD || text[i] != word[m]))
        m = borders[m - 1];
    if (text[i] == word[m])
        m++;
    if (m == WORD) {
        ends[i] = 1;
        matches++;
    }
    *matched = m;
    return 0;
}

SEC("xdp") long kmp(__u64 argument) {
    unsigned int m = 0;
    long read;
    for (int i = 1; i < WORD; i++) {
        while (m > 0 && word[i] != word[m])
            m = borders[m - 1];
        if (word[i] == word[m])
            m++;
        borders[i] = m;
    }
    m = 0;
    read = bpf_loop(TEXT, scan, &m, 0);
    return read * 100 + matches;
}
