#include <stdint.h>

#define WINDOW 8

void moving_average(const int16_t *in, int16_t *out, int n)
{
    int16_t f_buf[WINDOW] = {0};
    uint8_t f_pos = 0;
    int32_t f_sum = 0;

    for (int i = 0; i < n; i++) {
        f_sum -= f_buf[f_pos];
        f_buf[f_pos] = in[i];
        f_sum += in[i];
        f_pos = (f_pos + 1) % WINDOW;
        out[i] = f_sum / WINDOW;
    }
}
