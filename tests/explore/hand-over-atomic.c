#include <stdio.h>
int flag, data;

int main(void)
{
#pragma omp parallel num_threads(2)
    {
        if (omp_get_thread_num() == 0) {
            data = 42;
#pragma omp atomic write seq_cst
            flag = 1;
        } else {
            int seen = 0;
            while (!seen) {
#pragma omp atomic read seq_cst
                seen = flag;
            }
            printf("%d\n", data);
        }
    }
}
