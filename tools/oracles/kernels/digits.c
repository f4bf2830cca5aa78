#include <stdint.h>
int32_t digits(int32_t value, uint8_t text[12]) {
  int32_t at = 0, left = value < 0 ? -value : value;
  do {
    text[at] = 48 + left % 10;
    left = left / 10;
    at++;
  } while (left > 0);
  if (value < 0) {
    text[at] = 45;
    at++;
  }
  for (int32_t i = 0; i < at / 2; i++) {
    uint8_t t = text[i];
    text[i] = text[at - 1 - i];
    text[at - 1 - i] = t;
  }
  return at;
}
