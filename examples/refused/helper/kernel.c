#include <stdint.h>
static int32_t clip(int32_t x) {
  if (x > 255)
    return 255;
  return x < 0 ? 0 : x;
}
void brighten(int32_t by, uint8_t image[16]) {
  for (int i = 0; i < 16; i++)
    image[i] = clip(image[i] + by);
}
