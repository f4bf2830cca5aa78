/* Kernighan's way, over an array of words. */
unsigned int popcount(const unsigned long *words, int n)
{
    register unsigned int count = 0;

    do {
        unsigned long w = *words++;
        while (w) {
            w &= w - 1;
            count++;
        }
    } while (--n > 0);
    return count;
}
