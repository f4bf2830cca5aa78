#include <stdint.h>
#define IDLE 0
#define RUN 1
#define DONE 2
int32_t next(int32_t state, int32_t start) {
  if (state == IDLE && start)
    return RUN;
  return state == RUN ? DONE : IDLE;
}
