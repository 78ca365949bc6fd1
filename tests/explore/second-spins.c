int taken;

int main(void)
{
#pragma omp parallel num_threads(2)
    {
        int is_first;
#pragma omp critical
        {
            is_first = !taken;
            taken = 1;
        }
        while (!is_first && omp_get_thread_num() == 0)
            ;
    }
}
