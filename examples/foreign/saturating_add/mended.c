#include <stdint.h>
static int16_t sat_add(int16_t a, int16_t b) {
  int16_t result;
  int32_t s = (int32_t)a + b;
  if (s > 32767)
    result = 32767;
  else if (s < (-32768))
    result = (-32768);
  else
    result = (int16_t)s;
  return result;
}
void mix(int16_t dst[10], int16_t src[10], uint32_t n) {
  int32_t dst_at = 0;
  int32_t src_at = 0;
  while (1) {
    int32_t go = n > 0;
    n--;
    if (!go)
      break;
    dst[dst_at] = sat_add(dst[dst_at], src[src_at]);
    src_at++;
    dst_at++;
  }
}
