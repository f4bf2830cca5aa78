#include <stdint.h>
uint32_t collatz(uint64_t n, uint64_t peak[1]) {
  uint32_t steps;
  steps = 0;
  for (peak[0] = n; n != 1; steps++) {
    n = n & 1 ? 3 * n + 1 : n >> 1;
    if (n > peak[0])
      peak[0] = n;
  }
  return steps;
}
