#include <stdint.h>
int32_t levenshtein(int8_t s1[8], int32_t s1len, int8_t s2[8], int32_t s2len, uint32_t column[9]) {
  uint32_t x, y, lastdiag, olddiag;
  for (y = 1; y <= s1len; y++)
    column[y] = y;
  for (x = 1; x <= s2len; x++) {
    column[0] = x;
    y = 1;
    for (lastdiag = x - 1; y <= s1len; y++) {
      olddiag = column[y];
      column[y] = column[y] + 1 < column[y - 1] + 1 ? (column[y] + 1 < lastdiag + (s1[y - 1] == s2[x - 1] ? 0 : 1) ? column[y] + 1 : lastdiag + (s1[y - 1] == s2[x - 1] ? 0 : 1)) : column[y - 1] + 1 < lastdiag + (s1[y - 1] == s2[x - 1] ? 0 : 1) ? column[y - 1] + 1 : lastdiag + (s1[y - 1] == s2[x - 1] ? 0 : 1);
      lastdiag = olddiag;
    }
  }
  return column[s1len];
}
