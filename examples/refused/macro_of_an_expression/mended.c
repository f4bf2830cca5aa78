#include <stdint.h>
#define ROWS 4
#define COLUMNS 6
#define CELLS 24
void clear(uint8_t cells[CELLS]) {
  for (int i = 0; i < CELLS; i++)
    cells[i] = 0;
}
