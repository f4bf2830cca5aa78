#include <stdint.h>
void bubble_sort(int32_t a[8], int32_t n) {
  int32_t i, swapped;
  do {
    swapped = 0;
    for (i = 1; i < n; i++) {
      if (a[i - 1] > a[i]) {
        do {
          int32_t tmp = a[i - 1];
          a[i - 1] = a[i];
          a[i] = tmp;
        } while (0);
        swapped = 1;
      }
    }
    n--;
  } while (swapped);
}
