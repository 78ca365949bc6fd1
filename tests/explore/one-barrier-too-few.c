int a[2], b[2];

int main(void)
{
#pragma omp parallel num_threads(2)
    {
        int me = omp_get_thread_num();
        a[me] = me + 1;
#pragma omp barrier
        b[me] = a[1 - me];
        a[me] = 5;
    }
    return 10 * b[0] + b[1];
}
