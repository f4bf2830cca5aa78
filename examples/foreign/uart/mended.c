#include <stdint.h>
#define ST_IDLE 0
#define ST_DATA 2
#define ST_STOP 3
#define ST_ERROR 4
#define DATA_BITS 8
// A UART receiver: one line sample a bit time, eight data bits, one stop bit.
int32_t uart_rx(uint8_t samples[40], int32_t n, uint8_t out[4]) {
  uint32_t state = ST_IDLE;
  uint8_t shift = 0;
  uint8_t bits = 0;
  int32_t received = 0;
  uint8_t line;
  for (int32_t i = 0; i < n; i++) {
    line = (samples[i] & 0x10) != 0;
    if (state == ST_IDLE) {
      if (!line) {
        state = ST_DATA;
        bits = 0;
        shift = 0;
      }
    } else if (state == ST_DATA) {
      shift >>= 1;
      if (line)
        shift |= 0x80;
      bits++;
      if (bits == DATA_BITS)
        state = ST_STOP;
    } else if (state == ST_STOP) {
      if (!line)
        state = ST_ERROR;
      else {
        out[received] = shift;
        received++;
        state = ST_IDLE;
      }
    } else if (line)
      state = ST_IDLE;
  }
  return received;
}
