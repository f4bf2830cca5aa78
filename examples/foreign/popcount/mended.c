#include <stdint.h>
// Kernighan's way, over an array of words.
uint32_t popcount(uint64_t words[4], int32_t n) {
  int32_t words_at = 0;
  uint32_t count = 0;
  do {
    uint64_t w = words[words_at];
    words_at++;
    while (w) {
      w &= w - 1;
      count++;
    }
    n--;
  } while (n > 0);
  return count;
}
