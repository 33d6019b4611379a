// The product of two matrices of 8 by 8 signed numbers of 16 bits.
#include <linux/bpf.h>
#include <bpf/bpf_helpers.h>

#define N 8

__s16 a[N][N], b[N][N];
__s32 c[N][N];

static long row(__u32 i, void *ctx)
{
    for (int j = 0; j < N; j++) {
        __s32 sum = 0;
        for (int k = 0; k < N; k++)
            sum += a[i][k] * b[k][j];
        c[i][j] = sum;
    }
    return 0;
}

SEC("xdp")
int matrix_product(void *ctx)
{
    int trace = 0;
    for (int i = 0; i < N; i++) {
        for (int j = 0; j < N; j++) {
            a[i][j] = i * 3 - j * 5;
            b[i][j] = (i ^ j) - 4;
        }
    }
    bpf_loop(N, row, NULL, 0);
    for (int i = 0; i < N; i++)
        trace += c[i][i];
    return trace;
}
char LICENSE[] SEC("license") = "GPL";
