#include <stdint.h>
void add(int32_t x, int32_t total[1]) {
  total[0] += x;
}
