#include <stdio.h>
int box, full;

int main(void)
{
#pragma omp parallel num_threads(2)
    {
        int me = omp_get_thread_num(), seen;
        for (int turn = 1; turn <= 2; turn++) {
            do {
#pragma omp atomic read
                seen = full;
            } while (seen != me);
            if (me)
                printf("%d ", box);
            else
                box = 10 * turn;
#pragma omp atomic write
            full = !me;
        }
    }
}
