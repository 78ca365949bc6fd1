int buffer, sum;

int main(void)
{
#pragma omp parallel num_threads(2)
#pragma omp single
    {
#pragma omp task
        buffer = 5;
#pragma omp task
        sum = buffer + 1;
    }
    return sum;
}
