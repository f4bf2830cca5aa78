#include <stdint.h>
int32_t find(int32_t key, int32_t a[4][4]) {
  int32_t row = 0;
  for (; row < 4; row++)
    for (int32_t column = 0; column < 4; column++)
      if (a[row][column] == key)
        return row;
  return row;
}
