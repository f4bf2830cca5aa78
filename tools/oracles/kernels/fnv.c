#include <stdint.h>
uint64_t fnv(int32_t n, uint8_t data[24]) {
  uint64_t hash = 14695981039346656037u;
  for (int32_t i = 0; i < n; i++) {
    hash ^= data[i];
    hash *= 1099511628211u;
  }
  return hash;
}
