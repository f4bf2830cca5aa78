#include <stdint.h>
static int32_t clip(int32_t x) {
  int32_t result;
  if (x > 255)
    result = 255;
  else
    result = x < 0 ? 0 : x;
  return result;
}
void brighten(int32_t by, uint8_t image[16]) {
  for (int i = 0; i < 16; i++)
    image[i] = clip(image[i] + by);
}
