int d, q;

int main(void)
{
#pragma omp parallel num_threads(2)
    {
        if (omp_get_thread_num() == 0)
            d = 2;
        else
            q = 10 / d;
    }
    return q;
}
