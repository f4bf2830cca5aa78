#include <stdint.h>
#define N 11
// An 11-tap FIR filter for synthesis.
void fir(int32_t y[1], int32_t x, int32_t c[N], int32_t shift_reg[N]) {
  int32_t acc;
  int32_t i;
  acc = 0;
  for (i = N - 1; i >= 0; i--) {
    if (i == 0) {
      acc += x * c[0];
      shift_reg[0] = x;
    } else {
      shift_reg[i] = shift_reg[i - 1];
      acc += shift_reg[i] * c[i];
    }
  }
  y[0] = acc;
}
