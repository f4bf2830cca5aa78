#include <stdint.h>

static const unsigned char lookup[16] = {
    0x0, 0x8, 0x4, 0xc, 0x2, 0xa, 0x6, 0xe,
    0x1, 0x9, 0x5, 0xd, 0x3, 0xb, 0x7, 0xf,
};

static inline uint8_t reverse(uint8_t n)
{
    return (lookup[n & 0b1111] << 4) | lookup[n >> 4];
}

uint32_t bitreverse(uint32_t v)
{
    uint32_t r = 0;
    for (int i = 0; i < sizeof(v); i++, v >>= 8)
        r = r << 8 | reverse(v & 0xff);
    return r;
}
