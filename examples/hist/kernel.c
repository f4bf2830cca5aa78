#include <stdint.h>
#define BINS 4
void hist(int32_t n, int32_t x[8], int32_t w[8], int32_t h[BINS]) {
  for (int32_t i = 0; i < n; i++)
    h[x[i]] += w[i];
}
