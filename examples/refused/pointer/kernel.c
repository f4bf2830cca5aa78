#include <stdint.h>
void copy(int32_t n, int32_t *from, int32_t *to) {
  for (int i = 0; i < n; i++)
    to[i] = from[i];
}
