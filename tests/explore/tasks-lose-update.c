int sum;

int main(void)
{
#pragma omp parallel num_threads(2)
#pragma omp single
    {
#pragma omp task
        sum += 1;
#pragma omp task
        sum += 2;
    }
    return sum;
}
