int sum;

int main(void)
{
    int x = 5;
#pragma omp parallel num_threads(2) firstprivate(x)
    {
        x = x + omp_get_thread_num();
#pragma omp atomic
        sum += x;
    }
    return 100 * x + sum;
}
