#include <stdint.h>
uint32_t bcd(uint32_t n) {
  uint32_t out = 0;
  for (int32_t digit = 0; digit < 8; digit++) {
    out |= n % 10 << 4 * digit;
    n /= 10;
  }
  return out;
}
