/* pipeline.c, mended: each task is waited for before the next one is made */
#include <stdio.h>
#include <omp.h>

int raw, cooked, stored;

void load(void)      { raw = 21; }
void transform(void) { cooked = raw * 2; }
void store(void)     { stored = cooked; }

int main(void)
{
    #pragma omp parallel
    #pragma omp single
    {
        #pragma omp task
        load();
        #pragma omp taskwait
        #pragma omp task
        transform();
        #pragma omp taskwait
        #pragma omp task
        store();
        #pragma omp taskwait
        printf("stored = %d\n", stored);
    }
    return 0;
}
