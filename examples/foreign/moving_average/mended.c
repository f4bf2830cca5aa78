#include <stdint.h>
#define WINDOW 8
void moving_average(int16_t in[20], int16_t out[20], int32_t n, int16_t f_buf[WINDOW]) {
  uint8_t f_pos = 0;
  int32_t f_sum = 0;
  for (int32_t i = 0; i < n; i++) {
    f_sum -= f_buf[f_pos];
    f_buf[f_pos] = in[i];
    f_sum += in[i];
    f_pos = (f_pos + 1) % WINDOW;
    out[i] = f_sum / WINDOW;
  }
}
