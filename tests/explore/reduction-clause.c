int main(void)
{
    int sum = 100;
#pragma omp parallel for num_threads(2) reduction(+: sum) schedule(dynamic)
    for (int i = 1; i <= 3; i++)
        sum += i;
    return sum;
}
