/* Quicksort of signed words with insertion sort of short parts, and shell sort of half-words. */
#include "common.h"
#define N 200
RESULTS u32 result[4];
static int words[N];
static short halves[N];

static void quick(int *a, int n)
{
    while (n > 8) {
        int pivot = a[n / 2], i = 0, j = n - 1;
        for (;;) {
            while (a[i] < pivot) i++;
            while (pivot < a[j]) j--;
            if (i >= j) break;
            int t = a[i]; a[i] = a[j]; a[j] = t;
            i++; j--;
        }
        quick(a, i);
        a += i; n -= i;
    }
    for (int i = 1; i < n; i++) {
        int x = a[i], j = i;
        for (; j && a[j - 1] > x; j--) a[j] = a[j - 1];
        a[j] = x;
    }
}

static void shell(short *a, int n)
{
    static const u8 gaps[] = { 57, 23, 10, 4, 1 };
    for (int g = 0; g < 5; g++)
        for (int i = gaps[g]; i < n; i++) {
            short x = a[i];
            int j = i;
            for (; j >= gaps[g] && a[j - gaps[g]] > x; j -= gaps[g]) a[j] = a[j - gaps[g]];
            a[j] = x;
        }
}

int main(void)
{
    u32 seed = 2463534242u;
    for (int i = 0; i < N; i++) {
        words[i] = (int)next(&seed);
        halves[i] = (short)seed;
    }
    quick(words, N);
    shell(halves, N);
    u32 bad = 0, sum = 0;
    for (int i = 1; i < N; i++) bad += (words[i - 1] > words[i]) + (halves[i - 1] > halves[i]);
    for (int i = 0; i < N; i++) sum = (sum << 1 | sum >> 31) ^ (u32)words[i] ^ (u16)halves[i];
    result[0] = bad;
    result[1] = sum;
    result[2] = (u32)words[0];
    result[3] = (u32)words[N - 1];
    return 0;
}
