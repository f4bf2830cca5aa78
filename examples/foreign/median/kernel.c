static void swap(int *a, int *b)
{
    int t = *a;
    *a = *b;
    *b = t;
}

static int median3(int a, int b, int c)
{
    if (a > b) swap(&a, &b);
    if (b > c) swap(&b, &c);
    if (a > b) swap(&a, &b);
    return b;
}

void median_filter(const int *in, int *out, int n)
{
    int i;

    if (n <= 0 || !in || !out)
        return;
    out[0] = in[0];
    for (i = 1; i + 1 < n; ++i)
        out[i] = median3(in[i - 1], in[i], in[i + 1]);
    if (n > 1)
        out[n - 1] = in[n - 1];
}
