/* Multiplication and division, by instructions or by the compiler's library: digits of pi, a hash with products of 64 bits,
   days of the calendar with signed remainders, prime factors. */
#include "common.h"
RESULTS u32 result[8];
#define LENGTH 24
static u32 part[LENGTH];
static u8 pi[10];

int main(void)
{
    for (int i = 0; i < LENGTH; i++) part[i] = 2;
    u32 held = 0, nines = 0, n = 0, first = 1;
    for (int k = 0; k < 8; k++) {                       /* the spigot of Rabinowitz and Wagon */
        u32 carry = 0;
        for (u32 i = LENGTH; i-- > 0;) {
            u32 x = part[i] * 10 + carry * (i + 1);
            if (i) { part[i] = x % (2 * i + 1); carry = x / (2 * i + 1); }
            else   { part[i] = x % 10; carry = x / 10; }
        }
        if (carry == 9) nines++;
        else {
            if (!first) pi[n++] = (u8)(held + carry / 10);
            while (nines) pi[n++] = carry > 9 ? 0 : 9, nines--;
            held = carry % 10;
            first = 0;
        }
    }
    u32 d = 0;
    for (u32 i = 0; i < n && i < 6; i++) d = d << 4 | pi[i];
    result[0] = d;
    result[1] = n;

    unsigned long long h = 1469598103934665603ull;
    for (u32 i = 0; i < 24; i++) h = (h ^ pi[i % 6]) * 1099511628211ull;
    result[2] = (u32)h;
    result[3] = (u32)(h >> 32);

    int sum = 0;
    for (int y = -40; y < 60; y += 7) {
        int day = (y * 365 + y / 4 - y / 100 + y / 400) % 7;
        sum = sum * 3 + day;
    }
    result[4] = (u32)sum;

    u32 factors = 0;
    for (u32 x = 600851475u, p = 2; p <= 97 && x > 1; p += p > 2 ? 2 : 1)
        while (x % p == 0) x /= p, factors = factors * 31 + p;
    result[5] = factors;
    long long signs = -1234567890123ll;
    result[6] = (u32)((signs * -987654321ll) >> 20);
    result[7] = (u32)(signs >> 7) ^ (u32)((signs * 3) >> 32);
    return 0;
}
