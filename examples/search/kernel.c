#include <stdint.h>
int32_t search(int32_t n, int32_t key, int32_t a[16]) {
  for (int32_t i = 0; i < n; i++)
    if (a[i] == key)
      return i;
  return -1;
}
