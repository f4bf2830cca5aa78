#include <stdint.h>
int32_t first_bit(uint16_t word) {
  int32_t at = 0;
  while (at < 8 * sizeof(word) && !(word >> at & 1))
    at++;
  return at;
}
