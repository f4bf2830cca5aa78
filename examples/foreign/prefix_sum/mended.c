#include <stdint.h>
#define SIZE 16
void prefix_sum(int32_t in[SIZE], int32_t out[SIZE]) {
  int32_t i, acc;
  i = 1;
  out[0] = in[0];
  for (acc = out[0]; i < SIZE; i++) {
    acc += in[i];
    out[i] = acc;
  }
}
