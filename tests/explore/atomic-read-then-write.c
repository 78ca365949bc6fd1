int x;

int main(void)
{
#pragma omp parallel num_threads(2)
    {
        int old;
#pragma omp atomic read
        old = x;
#pragma omp atomic write
        x = old + 1;
    }
    return x;
}
