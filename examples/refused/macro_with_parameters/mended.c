#include <stdint.h>
int32_t greatest(int32_t a, int32_t b) {
  return a > b ? a : b;
}
