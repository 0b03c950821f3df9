/* The largest and the smallest of signed bytes, and how many are between two bounds: for rv32i and for rv32i with seven instructions of the extension Zbb.
   The results are words 8 to 10 of the data memory. */
#include "common.h"
RESULTS int result[3];
static signed char data[256];

static int max(int a, int b) { return a > b ? a : b; }
static int min(int a, int b) { return a < b ? a : b; }

int main(void) {
    unsigned seed = 1;
    int largest = -128, smallest = 127, between = 0;
    for (int i = 0; i < 256; i++) {
        seed = seed * 5 + 1;
        data[i] = (signed char)(seed >> 8);
    }
    for (int i = 0; i < 256; i++) {
        largest = max(largest, data[i]);
        smallest = min(smallest, data[i]);
        between += min(max(data[i], -10), 10) == data[i];
    }
    result[0] = largest;
    result[1] = smallest;
    result[2] = between;
    return 0;
}
