/* smooth.c, mended: the first loop ends with its barrier */
#include <stdio.h>
#include <omp.h>
#define N 6

int in[N], out[N];

int main(void)
{
    #pragma omp parallel
    {
        #pragma omp for
        for (int i = 0; i < N; i++)
            in[i] = i * i;

        #pragma omp for
        for (int i = 1; i < N - 1; ++i)
            out[i] = (in[i - 1] + in[i] + in[i + 1]) / 3;
    }
    for (int i = 0; i < N; i++)
        printf("%d ", out[i]);
    return 0;
}
