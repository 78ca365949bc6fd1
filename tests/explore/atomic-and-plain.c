int x;

int main(void)
{
#pragma omp parallel num_threads(2)
    {
        if (omp_get_thread_num() == 0) {
#pragma omp atomic
            x += 1;
        } else
            x = x + 10;
    }
    return x;
}
