#include <stdint.h>
typedef int16_t sample;
int32_t energy(sample x[8]) {
  int32_t sum = 0;
  for (int i = 0; i < 8; i++)
    sum += x[i] * x[i];
  return sum;
}
