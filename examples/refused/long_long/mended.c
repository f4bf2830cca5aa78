#include <stdint.h>
int64_t dot(int32_t n, int32_t a[8], int32_t b[8]) {
  int64_t sum = 0;
  for (int i = 0; i < n; i++)
    sum += (int64_t)a[i] * b[i];
  return sum;
}
