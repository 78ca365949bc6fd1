int x, y;

int main(void)
{
#pragma omp parallel num_threads(2)
    {
        if (omp_get_thread_num() == 0)
            y = 5;
        else {
#pragma omp atomic
            x += y;
        }
    }
    return x;
}
