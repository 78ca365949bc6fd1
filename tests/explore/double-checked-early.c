int ready, config, early;

int main(void)
{
#pragma omp parallel num_threads(2)
    {
        int seen;
#pragma omp atomic read
        seen = ready;
        if (!seen) {
#pragma omp critical
            if (!ready) {
#pragma omp atomic write
                ready = 1;
                config = 7;
            }
        }
        if (config != 7)
            early = 1;
    }
    return early;
}
