int n, a[2];

int main(void)
{
#pragma omp parallel num_threads(2)
    {
        if (omp_get_thread_num() == 0)
            n = 1;
        else {
#pragma omp atomic
            a[n]++;
        }
    }
    return a[1];
}
