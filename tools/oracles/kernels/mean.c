#include <stdint.h>
int32_t mean(int32_t n, int16_t x[40], int32_t out[4]) {
  int32_t sum = 0, least = 32767, most = -32768;
  for (int32_t i = 0; i < n; i++) {
    int32_t v = x[i];
    sum += v;
    if (v < least)
      least = v;
    if (v > most)
      most = v;
  }
  out[0] = least;
  out[1] = most;
  out[2] = sum / 40;
  out[3] = (most - least) / 2;
  return sum;
}
