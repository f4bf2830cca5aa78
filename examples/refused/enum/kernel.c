#include <stdint.h>
enum { IDLE, RUN, DONE };
int32_t next(int32_t state, int32_t start) {
  if (state == IDLE && start)
    return RUN;
  return state == RUN ? DONE : IDLE;
}
