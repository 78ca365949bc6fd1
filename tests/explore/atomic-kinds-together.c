int x, a[1], seen;

int main(void)
{
#pragma omp parallel num_threads(2)
    {
        if (omp_get_thread_num() == 0) {
#pragma omp atomic
            x += 2;
#pragma omp atomic write
            a[0] = 1;
        } else {
#pragma omp atomic read
            seen = x;
#pragma omp atomic update
            a[0] = 5 - a[0];
        }
    }
    return 10 * a[0] + seen;
}
