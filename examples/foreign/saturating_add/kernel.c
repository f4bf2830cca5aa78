#include <stdint.h>

int16_t sat_add(int16_t a, int16_t b)
{
    int32_t s = (int32_t)a + b;
    if (s > INT16_MAX)
        return INT16_MAX;
    if (s < INT16_MIN)
        return INT16_MIN;
    return (int16_t)s;
}

void mix(int16_t *dst, const int16_t *src, unsigned n)
{
    while (n-- > 0) {
        *dst = sat_add(*dst, *src++);
        dst++;
    }
}
