#include <stdint.h>
#include <stdlib.h>

#define WIDTH 12
#define CLAMP(v) ((v) > 255 ? 255 : (v))

static const int8_t Gx[3][3] = {{-1, 0, 1}, {-2, 0, 2}, {-1, 0, 1}};
static const int8_t Gy[3][3] = {{-1, -2, -1}, {0, 0, 0}, {1, 2, 1}};

/* One row of the gradient's magnitude, from three rows of the image. */
void sobel_row(const uint8_t src[3][WIDTH], uint8_t *dst)
{
    int x, i, j;

    dst[0] = dst[WIDTH - 1] = 0;
row:
    for (x = 1; x < WIDTH - 1; x++) {
        int gx = 0, gy = 0;
    win_y:
        for (i = 0; i < 3; i++)
        win_x:
            for (j = 0; j < 3; j++) {
                gx += Gx[i][j] * src[i][x + j - 1];
                gy += Gy[i][j] * src[i][x + j - 1];
            }
        int mag = abs(gx) + abs(gy);
        dst[x] = CLAMP(mag);
    }
}
