/* dot.c, mended: the sum is a reduction */
#include <stdio.h>
#include <omp.h>

#define N 8

int a[N], b[N];

int dot(int n)
{
    int sum = 0;
    #pragma omp parallel for schedule(static) reduction(+:sum)
    for (int i = 0; i < n; i++)
        sum += a[i] * b[i];
    return sum;
}

int main(void)
{
    for (int i = 0; i < N; i++) {
        a[i] = i;
        b[i] = 2 * i + 1;
    }
    printf("dot = %d\n", dot(N));
    return 0;
}
