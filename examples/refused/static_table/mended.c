#include <stdint.h>
int32_t smooth(int16_t taps[5], int16_t x[5]) {
  int32_t sum = 0;
  for (int i = 0; i < 5; i++)
    sum += taps[i] * x[i];
  return sum;
}
