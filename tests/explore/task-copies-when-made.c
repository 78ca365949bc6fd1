#include <stdio.h>
int x;

int main(void)
{
#pragma omp parallel num_threads(2)
    {
#pragma omp master
        {
#pragma omp task firstprivate(x)
            printf("%d", x);
        }
        if (omp_get_thread_num() == 1)
            x = 3;
    }
}
