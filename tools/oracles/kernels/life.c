#include <stdint.h>
#define W 8
#define H 6
void life(uint8_t now[H][W], uint8_t next[H][W]) {
  for (int32_t y = 0; y < H; y++)
    for (int32_t x = 0; x < W; x++) {
      int32_t alive = 0;
      for (int32_t dy = -1; dy <= 1; dy++)
        for (int32_t dx = -1; dx <= 1; dx++)
          if (dx || dy)
            alive += now[(y + dy + H) % H][(x + dx + W) % W];
      next[y][x] = alive == 3 || alive == 2 && now[y][x];
    }
}
