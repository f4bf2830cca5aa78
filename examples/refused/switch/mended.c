#include <stdint.h>
uint32_t alu(uint8_t code, uint32_t a, uint32_t b) {
  if (code == 0) {
    return a + b;
  } else if (code == 1) {
    return a - b;
  } else {
    return a & b;
  }
}
