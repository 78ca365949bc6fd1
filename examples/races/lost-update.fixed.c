/* counter.c, mended: each addition is atomic */
#include <stdio.h>
#include <omp.h>

#define N 3

int counter = 0;

int main(void)
{
    int threads = 4;

    #pragma omp parallel num_threads(threads)
    {
        for (int i = 0; i < N; i++)
            #pragma omp atomic
            counter++;
    }
    printf("counter = %d, expected %d\n", counter, threads * N);
    return counter == threads * N ? 0 : 1;
}
