/* fib.c, mended: the children are waited for before they are used */
#include <stdio.h>
#include <omp.h>

int fib(int n)
{
    int x, y;
    if (n < 2)
        return n;
    #pragma omp task shared(x)
    x = fib(n - 1);
    #pragma omp task shared(y)
    y = fib(n - 2);
    #pragma omp taskwait
    return x + y;
}

int main(void)
{
    int r;
    #pragma omp parallel
    {
        #pragma omp single
        r = fib(4);
    }
    printf("fib(4) = %d\n", r);
    return 0;
}
