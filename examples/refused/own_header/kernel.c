#include <stdint.h>
#include "gain.h"
int32_t amplify(int32_t x) {
  return x * GAIN;
}
