#define SIZE 16

void prefix_sum(int in[SIZE], int out[SIZE])
{
    int i, acc;

PREFIX:
    for (i = 1, acc = out[0] = in[0]; i < SIZE; i++)
        out[i] = acc += in[i];
}
