int sum, early;

int main(void)
{
#pragma omp parallel num_threads(2)
    {
#pragma omp for reduction(+: sum) nowait
        for (int i = 1; i <= 2; i++)
            sum += i;
#pragma omp master
        early = sum;
    }
    return 10 * sum + early;
}
