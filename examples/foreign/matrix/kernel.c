#include <string.h>

/* c = a * b, all n by n, row by row */
void matmul(const int *a, const int *b, int *c, int n)
{
    int i, j, k;

    memset(c, 0, n * n * sizeof(int));
    for (i = 0; i < n; i++)
        for (k = 0; k < n; k++) {
            const int r = *(a + i * n + k);
            for (j = 0; j < n; j++)
                *(c + i * n + j) += r * b[k * n + j];
        }
}
