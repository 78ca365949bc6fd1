int fib(int n)
{
    int x, y;
    if (n < 2)
        return n;
#pragma omp task shared(x)
    x = fib(n - 1);
    y = fib(n - 2);
#pragma omp taskwait
    return x + y;
}

int main(void)
{
    int result;
#pragma omp parallel num_threads(2)
#pragma omp single
    result = fib(2);
    return result;
}
