int a[2], b[2];

int main(void)
{
#pragma omp parallel num_threads(2)
    {
        int me = omp_get_thread_num();
        a[me] = me + 1;
#pragma omp barrier
        b[me] = a[1 - me];
#pragma omp barrier
        a[me] = b[1 - me] * 10;
    }
    return a[0] + a[1];
}
