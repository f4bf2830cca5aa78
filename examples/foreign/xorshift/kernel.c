#include <stdint.h>

static uint32_t state = 2463534242u;

uint32_t xorshift32(void)
{
    uint32_t x = state;
    x ^= x << 13;
    x ^= x >> 17;
    x ^= x << 5;
    return state = x;
}

/* Fisher and Yates */
void shuffle(uint8_t *deck, int n)
{
    while (n > 1) {
        int j = xorshift32() % n--;
        uint8_t tmp = deck[j];
        deck[j] = deck[n];
        deck[n] = tmp;
    }
}
