unsigned collatz(unsigned long long n, unsigned long long *peak)
{
    unsigned steps;

    for (steps = 0, *peak = n; n != 1; steps++) {
        n = (n & 1) ? 3 * n + 1 : n >> 1;
        if (n > *peak)
            *peak = n;
    }
    return steps;
}
