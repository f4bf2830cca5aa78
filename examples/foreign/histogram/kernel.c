#include <stdio.h>
#include <string.h>

#define LEVELS 16
#ifndef SHIFT
#define SHIFT 4
#endif

void histogram(const unsigned char *pixels, unsigned int count, unsigned short hist[LEVELS])
{
    unsigned int i;

    memset(hist, 0, LEVELS * sizeof(unsigned short));
    for (i = 0; i < count; ++i)
        ++hist[pixels[i] >> SHIFT];
#ifdef DEBUG
    printf("%u pixels\n", count);
#endif
}
