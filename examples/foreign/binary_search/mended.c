#include <stdint.h>
int32_t binary_search(int32_t arr[12], uint32_t size, int32_t key) {
  int32_t lo = 0;
  int32_t hi = (int32_t)size - 1;
  while (lo <= hi) {
    int32_t mid = lo + (hi - lo >> 1);
    if (arr[mid] == key)
      return mid;
    else if (arr[mid] < key)
      lo = mid + 1;
    else
      hi = mid - 1;
  }
  return -1;
}
