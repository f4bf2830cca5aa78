#include <stdint.h>
int32_t count(char text[16], char wanted) {
  int32_t found = 0;
  for (int i = 0; i < 16; i++)
    if (text[i] == wanted)
      found++;
  return found;
}
