#include <stdint.h>
void lookup(int32_t n, uint8_t table[16], uint8_t in[12], uint8_t out[12]) {
  for (int32_t i = 0; i < n; i++)
    out[i] = table[in[i] >> 4] << 4 | table[in[i] & 15];
}
