#include <stdint.h>
struct point { int32_t x; int32_t y; };
int32_t sum(struct point p[4]) {
  int32_t total = 0;
  for (int i = 0; i < 4; i++)
    total += p[i].x * p[i].y;
  return total;
}
