// Pascal's triangle modulo 2^16, and sums over its diagonals, by loops within loops.
#include "bpf.h"

#define ROWS 20

unsigned short triangle[ROWS][ROWS];
unsigned int diagonals[ROWS];

static long diagonal(__u32 i, void *ctx) {
    unsigned int sum = 0;
    for (unsigned int k = 0; k <= i && k < ROWS; k++) {
        if (i - k >= ROWS)
            continue;
        sum += triangle[i - k][k];
    }
    if (i < ROWS)
        diagonals[i] = sum;
    return 0;
}

SEC("xdp") long pascal(__u64 argument) {
    for (int y = 0; y < ROWS; y++) {
        triangle[y][0] = triangle[y][y] = 1;
        for (int x = 1; x < y; x++)
            triangle[y][x] = triangle[y - 1][x - 1] + triangle[y - 1][x];
    }
    bpf_loop(ROWS, diagonal, 0, 0);
    return diagonals[ROWS - 1];
}
