#include <stdint.h>
#define TAPS 5
void fir(int32_t n, int16_t x[16], int16_t c[TAPS], int32_t y[16]) {
  for (int32_t i = 0; i < n; i++) {
    int32_t sum = 0;
    for (int32_t k = 0; k < TAPS && k <= i; k++)
      sum += c[k] * x[i - k];
    y[i] = sum;
  }
}
