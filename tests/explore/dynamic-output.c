#include <stdio.h>

int main(void)
{
#pragma omp parallel for num_threads(2) schedule(dynamic)
    for (int i = 0; i < 3; i++)
        printf("%d", i);
}
