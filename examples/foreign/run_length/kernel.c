#include <stdint.h>

#define MAX_RUN 255

int rle_encode(const uint8_t *src, int len, uint8_t *dst)
{
    int in = 0, out = 0;
    uint8_t value, run;

    if (len == 0)
        goto done;
    do {
        value = src[in];
        run = 0;
        while (in < len && src[in] == value && run < MAX_RUN)
            in++, run++;
        dst[out++] = run;
        dst[out++] = value;
    } while (in < len);
done:
    return out;
}
