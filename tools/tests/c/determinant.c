// Determinants of matrices by elimination over a prime, with pivots and inverses, in main's own loops.
#include <linux/bpf.h>
#include <bpf/bpf_helpers.h>

#define N 6
#define P 10007u

__u32 a[N][N];
__u32 swaps;

static __u32 power(__u32 base, __u32 exponent)
{
    __u32 result = 1;

    for (; exponent; exponent >>= 1) {
        if (exponent & 1)
            result = result * base % P;
        base = base * base % P;
    }
    return result;
}

static __u32 determinant(void)
{
    __u32 det = 1;

    for (int c = 0; c < N; c++) {
        int pivot = c;
        while (pivot < N && a[pivot][c] == 0)
            pivot++;
        if (pivot == N)
            return 0;
        if (pivot != c) {
            for (int k = 0; k < N; k++) {
                __u32 t = a[c][k];
                a[c][k] = a[pivot][k];
                a[pivot][k] = t;
            }
            det = P - det;
            swaps++;
        }
        det = det * a[c][c] % P;
        __u32 inverse = power(a[c][c], P - 2);
        for (int r = c + 1; r < N; r++) {
            __u32 factor = a[r][c] * inverse % P;
            for (int k = c; k < N; k++)
                a[r][k] = (a[r][k] + (P - factor) * a[c][k]) % P;
        }
    }
    return det;
}

SEC("xdp")
int solve_matrix(__u64 arg)
{
    __u32 x = arg + 1;

    for (int r = 0; r < N; r++) {
        for (int c = 0; c < N; c++) {
            x = x * 1103515245 + 12345;
            a[r][c] = r == c && r < 2 ? 0 : (x >> 16) % P;
        }
    }
    return determinant();
}
