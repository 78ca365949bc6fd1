int a[4], sum;

int main(void)
{
    for (int i = 0; i < 4; i++)
        a[i] = i + 1;
#pragma omp parallel num_threads(2)
    {
        int part = 0;
#pragma omp for schedule(static) nowait
        for (int i = 0; i < 4; i++)
            part += a[i];
#pragma omp critical
        sum += part;
    }
    return sum;
}
