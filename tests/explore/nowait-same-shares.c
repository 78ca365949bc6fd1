int a[4], b[4];

int main(void)
{
#pragma omp parallel num_threads(2)
    {
#pragma omp for schedule(static) nowait
        for (int i = 0; i < 4; i++)
            a[i] = i;
#pragma omp for schedule(static) nowait
        for (int i = 0; i < 4; i++)
            b[i] = 2 * a[i];
    }
    return b[1] + 10 * b[2];
}
