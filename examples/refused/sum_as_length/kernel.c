#include <stdint.h>
#define N 8
void prefix(int32_t x[N], int32_t sums[N + 1]) {
  sums[0] = 0;
  for (int i = 0; i < N; i++)
    sums[i + 1] = sums[i] + x[i];
}
