int arrived, a[2], b[2];

int main(void)
{
#pragma omp parallel num_threads(2)
    {
        int me = omp_get_thread_num(), count = 0;
        a[me] = me + 1;
#pragma omp atomic
        arrived++;
        while (count < 2) {
#pragma omp atomic read
            count = arrived;
        }
        b[me] = a[1 - me];
    }
    return 10 * b[0] + b[1];
}
