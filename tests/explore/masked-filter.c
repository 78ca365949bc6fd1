#include <stdio.h>
int x;

int main(void)
{
#pragma omp parallel num_threads(2)
    {
#pragma omp masked filter(1)
        x = 5;
#pragma omp barrier
#pragma omp masked
        printf("%d\n", x);
    }
}
