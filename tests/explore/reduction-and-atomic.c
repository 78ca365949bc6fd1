int s;

int main(void)
{
#pragma omp parallel num_threads(2)
    {
        if (omp_get_thread_num() == 0)
#pragma omp atomic
            s += 4;
#pragma omp for reduction(+: s)
        for (int i = 0; i < 2; i++)
            s += 1;
    }
    return s;
}
