int i, runs;

int main(void)
{
#pragma omp parallel num_threads(2)
    for (i = 0; i < 1; i++)
#pragma omp atomic
        runs++;
    return runs;
}
