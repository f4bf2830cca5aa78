#include <stdint.h>
#include <stddef.h>

#define POLY 0x07

uint8_t crc8(const uint8_t *data, size_t len)
{
    uint8_t crc = 0xFF;

    while (len--) {
        crc ^= *data++;
        for (unsigned char i = 0; i < 8; i++) {
            if (crc & 0x80)
                crc = (uint8_t)((crc << 1) ^ POLY);
            else
                crc <<= 1;
        }
    }
    return crc;
}
