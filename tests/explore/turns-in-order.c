#include <stdio.h>
int turn;

int main(void)
{
#pragma omp parallel num_threads(2)
    {
        int me = omp_get_thread_num(), now;
        do {
#pragma omp atomic read
            now = turn;
        } while (now != me);
        printf("%d ", me);
#pragma omp atomic
        turn++;
    }
}
