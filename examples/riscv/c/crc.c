/* CRC-32 of a text, bit by bit and by a table of 16 entries, Adler-32 and Fletcher-16. */
#include "common.h"
RESULTS u32 result[4];
static const char text[] = "A machine that runs one instruction at a time, and a pipeline that shows the same. "
    "Stalls, forwarding and rollback are nobody's business but the tool's. 0123456789";
static u32 table[16];

static u32 by_bits(const char *p, u32 n)
{
    u32 c = ~0u;
    while (n--) {
        c ^= (u8)*p++;
        for (int k = 0; k < 8; k++) c = c & 1 ? c >> 1 ^ 0xedb88320u : c >> 1;
    }
    return ~c;
}

static u32 by_table(const char *p, u32 n)
{
    u32 c = ~0u;
    for (u32 i = 0; i < 16; i++) {
        u32 x = i;
        for (int k = 0; k < 4; k++) x = x >> 1 ^ (-(x & 1) & 0xedb88320u);
        table[i] = x;
    }
    while (n--) {
        c ^= (u8)*p++;
        c = c >> 4 ^ table[c & 15];
        c = c >> 4 ^ table[c & 15];
    }
    return ~c;
}

int main(void)
{
    u32 n = sizeof text - 1, a = 1, b = 0;
    u8 f = 0, g = 0;
    for (u32 i = 0; i < n; i++) {
        a += (u8)text[i]; if (a >= 65521) a -= 65521;
        b += a;           if (b >= 65521) b -= 65521;
        f += (u8)text[i]; g += f;
    }
    result[0] = by_bits(text, n);
    result[1] = by_table(text, n);
    result[2] = b << 16 | a;
    result[3] = (u32)g << 8 | f;
    return 0;
}
