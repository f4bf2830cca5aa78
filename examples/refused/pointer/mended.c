#include <stdint.h>
void copy(int32_t n, int32_t from[100], int32_t to[100]) {
  for (int i = 0; i < n; i++)
    to[i] = from[i];
}
