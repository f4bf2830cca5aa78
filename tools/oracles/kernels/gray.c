#include <stdint.h>
void gray(int32_t n, uint8_t rgb[16][3], uint8_t out[16]) {
  for (int32_t i = 0; i < n; i++)
    out[i] = (rgb[i][0] * 299 + rgb[i][1] * 587 + rgb[i][2] * 114) / 1000;
}
