int a[4], b[4];

int main(void)
{
#pragma omp parallel num_threads(2)
    {
#pragma omp for schedule(static) nowait
        for (int i = 0; i < 4; i++)
            a[i] = i + 1;
#pragma omp for schedule(static)
        for (int i = 0; i < 3; i++)
            b[i] = a[i + 1];
    }
    return 100 * b[0] + 10 * b[1] + b[2];
}
