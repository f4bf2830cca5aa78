#include <stdint.h>
uint64_t b64_encode(uint8_t in[12], uint64_t len, int8_t out[16], int8_t b64chars[65]) {
  uint64_t i, j;
  uint32_t v;
  i = 0;
  for (j = 0; i < len; j += 4) {
    v = in[i];
    v = i + 1 < len ? v << 8 | in[i + 1] : v << 8;
    v = i + 2 < len ? v << 8 | in[i + 2] : v << 8;
    out[j] = b64chars[v >> 18 & 0x3F];
    out[j + 1] = b64chars[v >> 12 & 0x3F];
    if (i + 1 < len)
      out[j + 2] = b64chars[v >> 6 & 0x3F];
    else
      out[j + 2] = 61;
    if (i + 2 < len)
      out[j + 3] = b64chars[v & 0x3F];
    else
      out[j + 3] = 61;
    i += 3;
  }
  return j;
}
