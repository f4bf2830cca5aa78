#include <stdint.h>
void minutes(int32_t n, uint32_t seconds[10], uint8_t clock[10][3]) {
  for (int32_t i = 0; i < n; i++) {
    uint32_t t = seconds[i];
    clock[i][0] = t / 3600 % 24;
    clock[i][1] = t / 60 % 60;
    clock[i][2] = t % 60;
  }
}
