#include <stdint.h>

int64_t dot(const int16_t *restrict a, const int16_t *restrict b, const int16_t *const end)
{
    int64_t acc = 0;
    while (a != end)
        acc += (int32_t)*a++ * *b++;
    return acc;
}
