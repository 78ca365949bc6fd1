int x = 1, sum;

int main(void)
{
#pragma omp parallel num_threads(2)
    {
#pragma omp for schedule(static, 1) nowait firstprivate(x)
        for (int i = 0; i < 2; i++)
#pragma omp atomic
            sum += x;
        x = 4;
    }
    return 10 * sum + x;
}
