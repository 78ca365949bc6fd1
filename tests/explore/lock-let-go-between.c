int x;

int main(void)
{
#pragma omp parallel num_threads(2)
    {
        int old;
#pragma omp critical
        old = x;
#pragma omp critical
        x = old + 1;
    }
    return x;
}
