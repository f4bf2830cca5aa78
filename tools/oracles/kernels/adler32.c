#include <stdint.h>
#define MOD 65521
uint32_t adler32(int32_t n, uint8_t data[32]) {
  uint32_t a = 1, b = 0;
  for (int32_t i = 0; i < n; i++) {
    a = (a + data[i]) % MOD;
    b = (b + a) % MOD;
  }
  return b << 16 | a;
}
