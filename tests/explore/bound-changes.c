int n = 2, runs;

int main(void)
{
#pragma omp parallel num_threads(2)
    {
#pragma omp for nowait
        for (int i = 0; i < n; i++)
#pragma omp atomic
            runs++;
#pragma omp masked
        n = 1;
    }
    return runs;
}
