#include <stdint.h>
#define STATES 4
#define POLYA 7
#define POLYB 5
// One step of a Viterbi decoder, K = 3, polynomials 7 and 5: add, compare, select.
static uint32_t parity(uint32_t x) {
  x ^= x >> 2;
  x ^= x >> 1;
  return x & 1;
}
uint8_t acs(uint16_t metrics[STATES], uint8_t sym0, uint8_t sym1, uint16_t next[STATES]) {
  uint8_t decisions = 0;
  int32_t s;
  for (s = 0; s < STATES; s++) {
    uint32_t best = 0xffff;
    uint32_t from = 0;
    for (uint32_t b = 0; b < 2; b++) {
      uint32_t reg = (s << 1 | b) & 0x7;
      uint32_t m = metrics[reg & STATES - 1];
      m += parity(reg & POLYA) != sym0;
      m += parity(reg & POLYB) != sym1;
      if (m < best) {
        best = m;
        from = b;
      }
    }
    next[s] = best;
    if (from)
      decisions |= 1 << s;
  }
  for (s = 0; s < STATES; s++)
    metrics[s] = next[s];
  return decisions;
}
