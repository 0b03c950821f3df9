/* Shared by the programs: results at a known place of the data memory, and a random number generator. */
typedef unsigned int u32;
typedef unsigned short u16;
typedef unsigned char u8;

#define RESULTS __attribute__((section(".results"))) volatile

static inline u32 next(u32 *x)                 /* xorshift, without multiplication */
{
    *x ^= *x << 13;
    *x ^= *x >> 17;
    *x ^= *x << 5;
    return *x;
}
