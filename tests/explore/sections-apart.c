int x, y;

int main(void)
{
#pragma omp parallel num_threads(2)
    {
#pragma omp sections
        {
            x = 1;
#pragma omp section
            y = 2;
        }
#pragma omp single
        x = x + y;
    }
    return x;
}
