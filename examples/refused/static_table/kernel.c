#include <stdint.h>
static const int16_t taps[5] = {1, 4, 6, 4, 1};
int32_t smooth(int16_t x[5]) {
  int32_t sum = 0;
  for (int i = 0; i < 5; i++)
    sum += taps[i] * x[i];
  return sum;
}
