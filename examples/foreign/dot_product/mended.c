#include <stdint.h>
int64_t dot(int16_t a[10], int16_t b[10], int32_t end) {
  int64_t acc = 0;
  int32_t a_at = 0;
  int32_t b_at = 0;
  while (a_at != end) {
    acc += (int32_t)a[a_at] * b[b_at];
    a_at++;
    b_at++;
  }
  return acc;
}
