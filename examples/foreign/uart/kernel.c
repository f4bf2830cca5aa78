/* A UART receiver: one line sample a bit time, eight data bits, one stop bit. */
#include <stdint.h>
#include <stdbool.h>

typedef enum { ST_IDLE, ST_START, ST_DATA, ST_STOP, ST_ERROR } state_t;

#define DATA_BITS 8

int uart_rx(const uint8_t *samples, int n, uint8_t *out)
{
    state_t state = ST_IDLE;
    uint8_t shift = 0, bits = 0;
    int received = 0;
    bool line;

    for (int i = 0; i < n; i++) {
        line = samples[i] & 0x10;
        switch (state) {
        case ST_IDLE:
            if (!line) {
                state = ST_DATA;
                bits = 0;
                shift = 0;
            }
            break;
        case ST_DATA:
            shift >>= 1;
            if (line)
                shift |= 0x80;
            if (++bits == DATA_BITS)
                state = ST_STOP;
            break;
        case ST_STOP:
            if (!line) {
                state = ST_ERROR;
                break;
            }
            out[received++] = shift;
            state = ST_IDLE;
            break;
        case ST_ERROR:
        default:
            if (line)
                state = ST_IDLE;
            break;
        }
    }
    return received;
}
