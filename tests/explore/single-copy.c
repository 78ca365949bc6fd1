int x, sum;

int main(void)
{
#pragma omp parallel num_threads(2)
    {
#pragma omp single
        x = 3;
#pragma omp atomic
        sum += x;
    }
    return sum;
}
