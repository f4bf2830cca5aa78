#include <stdint.h>
static int is_even(int32_t x) { return x % 2 == 0; }
static int is_small(int32_t x) { return x < 100; }
int32_t count(int32_t n, int32_t x[8]) {
  int32_t found = 0;
  for (int i = 0; i < n; i++)
    if (is_even(x[i])) {
      if (is_small(x[i]))
        found++;
    }
  return found;
}
