#include <stdint.h>
// Fisher and Yates
void shuffle(uint8_t deck[16], int32_t n, uint32_t state[1]) {
  while (n > 1) {
    uint32_t x = state[0];
    x ^= x << 13;
    x ^= x >> 17;
    x ^= x << 5;
    state[0] = x;
    uint32_t value = state[0];
    int32_t j = value % n;
    n--;
    uint8_t tmp = deck[j];
    deck[j] = deck[n];
    deck[n] = tmp;
  }
}
