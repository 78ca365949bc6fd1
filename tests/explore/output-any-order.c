#include <stdio.h>

int main(void)
{
#pragma omp parallel num_threads(2)
    {
        printf("%d", omp_get_thread_num());
#pragma omp barrier
        printf(".");
    }
}
