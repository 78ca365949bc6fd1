int x;

int main(void)
{
#pragma omp parallel num_threads(1)
    {
#pragma omp task
        x = 1;
        x = 2;
    }
    return x;
}
