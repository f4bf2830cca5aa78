#include <stdint.h>

int binary_search(const int *const arr, unsigned size, const int key)
{
    int lo = 0, hi = (int)size - 1;

    while (lo <= hi) {
        const int mid = lo + ((hi - lo) >> 1);
        if (arr[mid] == key)
            return mid;
        else if (arr[mid] < key)
            lo = mid + 1;
        else
            hi = mid - 1;
    }
    return -1;
}
