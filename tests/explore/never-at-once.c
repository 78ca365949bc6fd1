int x;

int main(void)
{
#pragma omp parallel num_threads(2)
    {
        if (omp_get_thread_num() == 5)
            x = 1;
        if (omp_get_thread_num() == 0)
            x = 2;
    }
    return x;
}
