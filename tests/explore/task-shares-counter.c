#include <stdio.h>
int i;

int main(void)
{
#pragma omp parallel num_threads(2)
#pragma omp single
    for (i = 0; i < 2; i++)
#pragma omp task
        printf("%d", i);
}
