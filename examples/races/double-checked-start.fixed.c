/* config.c, mended: the value is set before the flag, and atomics read and write the flag */
#include <stdio.h>
#include <omp.h>

int ready = 0;
int config;

int read_config(void)
{
    return 42;
}

int get_config(void)
{
    int seen;
    #pragma omp atomic read seq_cst
    seen = ready;
    if (!seen) {
        #pragma omp critical(init)
        {
            if (!ready) {
                config = read_config();
                #pragma omp atomic write seq_cst
                ready = 1;
            }
        }
    }
    return config;
}

int main(void)
{
    int bad = 0;
    #pragma omp parallel num_threads(3) reduction(+:bad)
    {
        if (get_config() != 42)
            bad++;
    }
    if (bad)
        printf("%d threads saw an empty config\n", bad);
    return bad;
}
