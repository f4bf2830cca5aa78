#include <stdint.h>
#define LEVELS 16
#define SHIFT 4
void histogram(uint8_t pixels[32], uint32_t count, uint16_t hist[LEVELS]) {
  uint32_t i;
  for (int32_t at = 0; at < 16; at++)
    hist[at] = 0;
  for (i = 0; i < count; i++)
    hist[pixels[i] >> SHIFT]++;
}
