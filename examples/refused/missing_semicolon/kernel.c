#include <stdint.h>
int32_t sum(int32_t n, int32_t x[8]) {
  int32_t total = 0
  for (int i = 0; i < n; i++)
    total += x[i];
  return total;
}
