#include <stdint.h>
void sort(int32_t n, int32_t a[8]) {
  for (int32_t i = 1; i < n; i++) {
    int32_t value = a[i];
    int32_t j = i;
    while (j > 0 && a[j - 1] > value) {
      a[j] = a[j - 1];
      j--;
    }
    a[j] = value;
  }
}
