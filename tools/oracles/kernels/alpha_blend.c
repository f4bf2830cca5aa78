#include <stdint.h>
void alpha_blend(int32_t n, uint8_t top[24], uint8_t bottom[24], uint8_t alpha[24], uint8_t out[24]) {
  for (int32_t i = 0; i < n; i++)
    out[i] = (top[i] * alpha[i] + bottom[i] * (255 - alpha[i]) + 127) / 255;
}
