#include <stdint.h>
void isqrt(int32_t n, uint32_t x[8], uint32_t out[8]) {
  for (int32_t i = 0; i < n; i++) {
    uint32_t left = x[i], root = 0, bit = 1u << 30;
    while (bit > left)
      bit >>= 2;
    while (bit != 0) {
      if (left >= root + bit) {
        left -= root + bit;
        root = (root >> 1) + bit;
      } else
        root >>= 1;
      bit >>= 2;
    }
    out[i] = root;
  }
}
