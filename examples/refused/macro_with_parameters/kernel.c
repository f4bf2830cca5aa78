#include <stdint.h>
#define MAX(a, b) ((a) > (b) ? (a) : (b))
int32_t greatest(int32_t a, int32_t b) {
  return MAX(a, b);
}
