int x;

void add(void)
{
#pragma omp critical(total)
    x++;
}

int main(void)
{
#pragma omp parallel num_threads(2)
    {
        if (omp_get_thread_num() == 1) {
#pragma omp critical(total)
            add();
        }
    }
    return x;
}
