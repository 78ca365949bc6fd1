int x;

int main(void)
{
    x = 1;
#pragma omp parallel num_threads(2)
    {
#pragma omp critical(a)
        x++;
#pragma omp barrier
#pragma omp critical(b)
        x++;
    }
    x++;
    return x;
}
