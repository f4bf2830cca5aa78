#include <stdint.h>
#define ROWS 5
#define COLUMNS 6
void stencil(int32_t in[ROWS][COLUMNS], int32_t out[ROWS][COLUMNS]) {
  for (int r = 1; r < ROWS - 1; r++)
    for (int c = 1; c < COLUMNS - 1; c++)
      out[r][c] = (4 * in[r][c] + in[r - 1][c] + in[r + 1][c] + in[r][c - 1] + in[r][c + 1]) >> 3;
}
