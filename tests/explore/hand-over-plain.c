#include <stdio.h>
int flag, data;

int main(void)
{
#pragma omp parallel num_threads(2)
    {
        if (omp_get_thread_num() == 0) {
            data = 42;
            flag = 1;
        } else {
            while (!flag)
                ;
            printf("%d\n", data);
        }
    }
}
