#define SWAP(a, b)        \
    do {                  \
        int tmp = (a);    \
        (a) = (b);        \
        (b) = tmp;        \
    } while (0)

void bubble_sort(int a[], int n)
{
    int i, swapped;

    do {
        swapped = 0;
        for (i = 1; i < n; i++)
            if (a[i - 1] > a[i]) {
                SWAP(a[i - 1], a[i]);
                swapped = 1;
            }
        n--;
    } while (swapped);
}
