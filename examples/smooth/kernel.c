#include <stdint.h>
#define TAPS 4
static int32_t scaled(int16_t sample, int16_t weight) {
  return sample * weight >> 6;
}
static int8_t clamp(int32_t value) {
  int32_t low = value < -128 ? -128 : value;
  return low > 127 ? 127 : low;
}
void smooth(int32_t n, int16_t x[16], int16_t w[TAPS], int8_t y[16]) {
  for (int32_t i = 0; i < n; i++) {
    int32_t sum = 0;
    for (int32_t k = 0; k < TAPS && k <= i; k++)
      sum += scaled(x[i - k], w[k]);
    y[i] = clamp(sum);
  }
}
