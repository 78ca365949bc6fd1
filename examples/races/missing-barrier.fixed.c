/* partial.c, mended: thread 0 adds up behind a barrier */
#include <stdio.h>
#include <omp.h>

#define MAX_THREADS 4
#define N 12

int data[N];
int partial[MAX_THREADS];

int main(void)
{
    data[0] = 3; data[1] = 1; data[2] = 4; data[3] = 1; data[4] = 5; data[5] = 9;
    data[6] = 2; data[7] = 6; data[8] = 5; data[9] = 3; data[10] = 5; data[11] = 8;
    int total = 0;
    #pragma omp parallel num_threads(MAX_THREADS) shared(total)
    {
        int id = omp_get_thread_num();
        int nt = omp_get_num_threads();
        int s = 0;
        for (int i = id; i < N; i += nt)
            s += data[i];
        partial[id] = s;
        #pragma omp barrier
        #pragma omp master
        {
            for (int t = 0; t < nt; t++)
                total += partial[t];
        }
    }
    printf("total = %d\n", total);
    return 0;
}
