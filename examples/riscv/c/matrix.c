/* Matrices of half-words and words: product and transpose. Multiplication is the instruction where there
   is one, else shift-and-add. */
#include "common.h"
#define N 7
RESULTS u32 result[4];
static short a[N][N], b[N][N];
static int c[N][N], d[N][N];

#ifndef __riscv_mul
u32 __mulsi3(u32 x, u32 y)
{
    u32 r = 0;
    for (; y; y >>= 1, x <<= 1) if (y & 1) r += x;
    return r;
}
#endif

int main(void)
{
    u32 seed = 88172645u, sum = 0, trace = 0;
    for (int i = 0; i < N; i++)
        for (int j = 0; j < N; j++) {
            a[i][j] = (short)(next(&seed) & 255);
            b[j][i] = (short)(next(&seed) & 127);
        }
    for (int i = 0; i < N; i++)
        for (int j = 0; j < N; j++) {
            int s = 0;
            for (int k = 0; k < N; k++) s += a[i][k] * b[k][j];
            c[i][j] = s;
        }
    for (int i = 0; i < N; i++)
        for (int j = 0; j < N; j++) d[j][i] = c[i][j] >> 3;
    for (int i = 0; i < N; i++) {
        trace += (u32)c[i][i];
        for (int j = 0; j < N; j++) sum = (sum << 5 | sum >> 27) ^ (u32)c[i][j] ^ (u32)d[i][j];
    }
    result[0] = sum;
    result[1] = trace;
    result[2] = (u32)c[0][N - 1];
    result[3] = (u32)d[N - 1][0];
    return 0;
}
