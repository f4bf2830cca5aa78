#include <stdint.h>
int32_t keep(int32_t n, int32_t x[8], int32_t kept[8]) {
  int32_t count = 0;
  for (int i = 0; i < n; i++)
    if (x[i] > 0) {
      kept[count] = x[i];
      count = count + 1;
    }
  return count;
}
