/* One step of a Viterbi decoder, K = 3, polynomials 7 and 5: add, compare, select. */
#include <stdint.h>

enum { STATES = 4, POLYA = 0x7, POLYB = 0x5 };

static unsigned parity(unsigned x)
{
    x ^= x >> 2;
    x ^= x >> 1;
    return x & 1;
}

uint8_t acs(uint16_t metrics[STATES], unsigned char sym0, unsigned char sym1)
{
    uint16_t next[STATES];
    uint8_t decisions = 0;
    int s;

    for (s = 0; s < STATES; s++) {
        unsigned best = 0xffff, from = 0;
        for (unsigned b = 0; b < 2; b++) {
            unsigned reg = (s << 1 | b) & 0x7;
            unsigned m = metrics[reg & (STATES - 1)];
            m += parity(reg & POLYA) != sym0;
            m += parity(reg & POLYB) != sym1;
            if (m < best)
                best = m, from = b;
        }
        next[s] = best;
        if (from)
            decisions |= 1 << s;
    }
    for (s = 0; s < STATES; s++)
        metrics[s] = next[s];
    return decisions;
}
