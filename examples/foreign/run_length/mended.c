#include <stdint.h>
#define MAX_RUN 255
int32_t rle_encode(uint8_t src[24], int32_t len, uint8_t dst[48]) {
  int32_t in = 0;
  int32_t out = 0;
  uint8_t value, run;
  if (len == 0)
    return out;
  do {
    value = src[in];
    run = 0;
    while (in < len && src[in] == value && run < MAX_RUN) {
      in++;
      run++;
    }
    dst[out] = run;
    out++;
    dst[out] = value;
    out++;
  } while (in < len);
  return out;
}
