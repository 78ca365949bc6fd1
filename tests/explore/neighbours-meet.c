int a[3];

int main(void)
{
#pragma omp parallel num_threads(2)
    {
        int me = omp_get_thread_num();
        a[me] = 1;
        a[me + 1] = 2;
    }
    return 100 * a[0] + 10 * a[1] + a[2];
}
