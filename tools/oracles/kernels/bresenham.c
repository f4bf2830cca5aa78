#include <stdint.h>
void bresenham(int32_t x0, int32_t y0, int32_t x1, int32_t y1, uint8_t screen[16][16]) {
  int32_t dx = x1 > x0 ? x1 - x0 : x0 - x1;
  int32_t dy = y1 > y0 ? y0 - y1 : y1 - y0;
  int32_t sx = x0 < x1 ? 1 : -1;
  int32_t sy = y0 < y1 ? 1 : -1;
  int32_t err = dx + dy;
  while (1) {
    screen[y0][x0] = 1;
    if (x0 == x1 && y0 == y1)
      break;
    int32_t e2 = 2 * err;
    if (e2 >= dy) {
      err += dy;
      x0 += sx;
    }
    if (e2 <= dx) {
      err += dx;
      y0 += sy;
    }
  }
}
