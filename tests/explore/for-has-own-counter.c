int i, sum;

int main(void)
{
#pragma omp parallel num_threads(2)
    {
#pragma omp for reduction(+: sum)
        for (i = 0; i < 2; i++)
            sum += i + 1;
    }
    return 10 * sum + i;
}
