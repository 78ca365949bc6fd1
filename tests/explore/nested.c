int runs, width;

int main(void)
{
#pragma omp parallel num_threads(2)
#pragma omp parallel num_threads(2)
    {
        int team = omp_get_num_threads();
#pragma omp atomic
        runs++;
#pragma omp critical
        width += team;
    }
    return 10 * runs + width;
}
