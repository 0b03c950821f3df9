/* For soc.v: adds up the values of the keys, and shows the sum on the leds. It waits for each key to be pressed and released. */
#define KEYS (*(volatile unsigned *)0x00400000)
#define LEDS (*(volatile unsigned *)0x00400000)

int main(void)
{
    unsigned sum = 0;
    for (int i = 0; i < 5; i++) {
        unsigned keys;
        while (!(keys = KEYS)) ;
        sum += keys;
        LEDS = sum;
        while (KEYS) ;
    }
    return (int)sum;
}
