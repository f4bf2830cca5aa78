#include <stdint.h>
// Greatest common divisors of pairs.
static uint32_t gcd(uint32_t a, uint32_t b) {
  while (b) {
    uint32_t next = a % b;
    a = b;
    b = next;
  }
  return a;
}
void gcd_pairs(uint32_t x[8], uint32_t y[8], uint32_t out[8]) {
  for (int32_t i = 0; i < 8; i++)
    out[i] = gcd(x[i], y[i]);
}
