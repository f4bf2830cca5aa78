#include <stdint.h>
#define WIDTH 12
// One row of the gradient's magnitude, from three rows of the image.
void sobel_row(uint8_t src[3][WIDTH], uint8_t dst[12], int8_t Gx[3][3], int8_t Gy[3][3]) {
  int32_t x, i, j;
  dst[WIDTH - 1] = 0;
  dst[0] = dst[WIDTH - 1];
  for (x = 1; x < WIDTH - 1; x++) {
    int32_t gx = 0;
    int32_t gy = 0;
    for (i = 0; i < 3; i++)
      for (j = 0; j < 3; j++) {
        gx += Gx[i][j] * src[i][x + j - 1];
        gy += Gy[i][j] * src[i][x + j - 1];
      }
    int32_t mag = (gx < 0 ? -gx : gx) + (gy < 0 ? -gy : gy);
    dst[x] = mag > 255 ? 255 : mag;
  }
}
