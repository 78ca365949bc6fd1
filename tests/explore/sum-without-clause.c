#include <stdio.h>
int sum;

int main(void)
{
#pragma omp parallel for num_threads(2)
    for (int i = 1; i <= 2; i++)
        sum += i;
    printf("sum = %d\n", sum);
}
