#include <stdint.h>
int32_t total = 0;
void add(int32_t x) {
  total += x;
}
