/* prodcons.c, mended: the data are stored before the flag, and atomics read and write the flag */
#include <stdio.h>
#include <omp.h>

int main()
{
    int data, flag = 0;
    #pragma omp parallel sections num_threads(2) shared(data, flag)
    {
        #pragma omp section
        {
            data = 17;
            #pragma omp atomic write seq_cst
            flag = 1;
        }
        #pragma omp section
        {
            int seen = 0;
            while (!seen) {
                #pragma omp atomic read seq_cst
                seen = flag;
            }
            printf("data = %d\n", data);
        }
    }
    return 0;
}
