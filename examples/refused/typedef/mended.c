#include <stdint.h>
int32_t energy(int16_t x[8]) {
  int32_t sum = 0;
  for (int i = 0; i < 8; i++)
    sum += x[i] * x[i];
  return sum;
}
