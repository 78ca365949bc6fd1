int y;

int main(void)
{
    int x;
#pragma omp parallel num_threads(2)
    {
        if (omp_get_thread_num() == 0)
            x = 1;
        else
            y = x;
    }
    return y;
}
