/* Greatest common divisors of pairs. */
static unsigned gcd(unsigned a, unsigned b)
{
    return b ? gcd(b, a % b) : a;
}

void gcd_pairs(unsigned x[8], unsigned y[8], unsigned out[8])
{
    for (int i = 0; i < 8; i++)
        out[i] = gcd(x[i], y[i]);
}
