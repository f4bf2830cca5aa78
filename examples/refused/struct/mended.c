#include <stdint.h>
int32_t sum(int32_t p_x[4], int32_t p_y[4]) {
  int32_t total = 0;
  for (int i = 0; i < 4; i++)
    total += p_x[i] * p_y[i];
  return total;
}
