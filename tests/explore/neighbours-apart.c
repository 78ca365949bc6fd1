int a[4];

int main(void)
{
#pragma omp parallel num_threads(2)
    {
        int me = omp_get_thread_num();
        a[2 * me] = me + 1;
        a[2 * me + 1] = a[2 * me] + 1;
    }
    return 1000 * a[0] + 100 * a[1] + 10 * a[2] + a[3];
}
