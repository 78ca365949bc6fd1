int x = 3, y[2];

int main(void)
{
#pragma omp parallel num_threads(2)
    y[omp_get_thread_num()] = x * x;
    return y[0] + y[1];
}
