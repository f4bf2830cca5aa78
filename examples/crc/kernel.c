#include <stdint.h>
#define POLYNOMIAL 0xedb88320
uint32_t crc(uint32_t n, uint8_t data[9]) {
  uint32_t rest = 0xffffffff;
  for (uint32_t i = 0; i < n; i++) {
    rest ^= data[i];
    for (int bit = 0; bit < 8; bit++)
      rest = (rest & 1) ? (rest >> 1) ^ POLYNOMIAL : rest >> 1;
  }
  return ~rest;
}
