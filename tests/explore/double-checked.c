int ready, config, early;

int main(void)
{
#pragma omp parallel num_threads(2)
    {
        if (!ready) {
#pragma omp critical
            if (!ready) {
                config = 7;
                ready = 1;
            }
        }
        if (config != 7)
            early = 1;
    }
    return early;
}
