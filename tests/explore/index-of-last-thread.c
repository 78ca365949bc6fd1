int a[2], x;

int main(void)
{
#pragma omp parallel num_threads(2)
    {
        a[omp_get_thread_num() + 1] = 7;
#pragma omp critical
        x++;
    }
    return x;
}
