#include <stdint.h>
#define POLY 0x07
uint8_t crc8(uint8_t data[24], uint64_t len) {
  int32_t data_at = 0;
  uint8_t crc = 0xFF;
  while (1) {
    int32_t go = len != 0;
    len--;
    if (!go)
      break;
    crc ^= data[data_at];
    data_at++;
    for (uint8_t i = 0; i < 8; i++) {
      if (crc & 0x80)
        crc = (uint8_t)(crc << 1 ^ POLY);
      else
        crc <<= 1;
    }
  }
  return crc;
}
