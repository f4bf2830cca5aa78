#include <stdint.h>
void median_filter(int32_t in[12], int32_t out[12], int32_t n) {
  int32_t i;
  if (n <= 0)
    return;
  out[0] = in[0];
  for (i = 1; i + 1 < n; i++) {
    int32_t median3_a = in[i - 1];
    int32_t median3_b = in[i];
    int32_t median3_c = in[i + 1];
    if (median3_a > median3_b) {
      int32_t t = median3_a;
      median3_a = median3_b;
      median3_b = t;
    }
    if (median3_b > median3_c) {
      int32_t t_2 = median3_b;
      median3_b = median3_c;
      median3_c = t_2;
    }
    if (median3_a > median3_b) {
      int32_t t_3 = median3_a;
      median3_a = median3_b;
      median3_b = t_3;
    }
    int32_t value = median3_b;
    out[i] = value;
  }
  if (n > 1)
    out[n - 1] = in[n - 1];
}
