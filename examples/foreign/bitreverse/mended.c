#include <stdint.h>
uint32_t bitreverse(uint32_t v, uint8_t lookup[16]) {
  uint32_t r = 0;
  for (int32_t i = 0; i < 4ul; v >>= 8) {
    uint8_t reverse_n = v & 0xff;
    uint8_t value = lookup[reverse_n & 0xf] << 4 | lookup[reverse_n >> 4];
    r = r << 8 | value;
    i++;
  }
  return r;
}
