int a[4];

int main(void)
{
    a[0] = 1;
#pragma omp parallel for num_threads(2) schedule(static, 1)
    for (int i = 1; i < 3; i++)
        a[i] = a[i - 1] + 1;
    return 10 * a[1] + a[2];
}
