int x;

int main(void)
{
#pragma omp parallel sections num_threads(2)
    {
        x = 1;
#pragma omp section
        x = 2;
    }
    return x;
}
