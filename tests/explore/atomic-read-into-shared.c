int x = 3, v;

int main(void)
{
#pragma omp parallel num_threads(2)
#pragma omp atomic read
    v = x;
    return v;
}
