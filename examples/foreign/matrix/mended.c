#include <stdint.h>
// c = a * b, all n by n, row by row
void matmul(int32_t a[16], int32_t b[16], int32_t c[16], int32_t n) {
  int32_t i, j, k;
  for (int32_t at = 0; at < (int32_t)(n * n); at++)
    c[at] = 0;
  for (i = 0; i < n; i++)
    for (k = 0; k < n; k++) {
      int32_t r = a[i * n + k];
      for (j = 0; j < n; j++)
        c[i * n + j] += r * b[k * n + j];
    }
}
