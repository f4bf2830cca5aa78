#include <stdint.h>
#define GAIN 12
int32_t amplify(int32_t x) {
  return x * GAIN;
}
