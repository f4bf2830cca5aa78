#include <stdint.h>
void mix(float part, int32_t a[8], int32_t b[8]) {
  for (int i = 0; i < 8; i++)
    a[i] = part * a[i] + (1 - part) * b[i];
}
