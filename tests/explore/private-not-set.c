int main(void)
{
    int x = 1, sum = 0;
#pragma omp parallel num_threads(2) private(x)
    {
#pragma omp critical
        sum += x;
    }
    return sum;
}
