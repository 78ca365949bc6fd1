int a[2], b[2];

int main(void)
{
#pragma omp parallel num_threads(2)
    {
#pragma omp for schedule(dynamic) nowait
        for (int i = 0; i < 2; i++)
            a[i] = i + 1;
#pragma omp for schedule(dynamic) nowait
        for (int i = 0; i < 2; i++)
            b[i] = a[i];
    }
    return 10 * b[0] + b[1];
}
