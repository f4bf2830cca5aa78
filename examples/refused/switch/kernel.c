#include <stdint.h>
uint32_t alu(uint8_t code, uint32_t a, uint32_t b) {
  switch (code) {
    case 0: return a + b;
    case 1: return a - b;
    default: return a & b;
  }
}
