#include <stdint.h>
int32_t least(int32_t n, int32_t x[8]) {
  int32_t best = 2147483647;
  for (int i = 0; i < n; i++)
    if (x[i] < best)
      best = x[i];
  return best;
}
