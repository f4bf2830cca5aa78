#include <stdint.h>

#define WINDOW 8

typedef struct {
    int16_t buf[WINDOW];
    uint8_t pos;
    int32_t sum;
} filter_t;

static int16_t filter_step(filter_t *f, int16_t sample)
{
    f->sum -= f->buf[f->pos];
    f->buf[f->pos] = sample;
    f->sum += sample;
    f->pos = (f->pos + 1) % WINDOW;
    return f->sum / WINDOW;
}

void moving_average(const int16_t *in, int16_t *out, int n)
{
    filter_t f = {{0}, 0, 0};

    for (int i = 0; i < n; i++)
        out[i] = filter_step(&f, in[i]);
}
