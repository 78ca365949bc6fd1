int x;

int main(void)
{
#pragma omp parallel num_threads(2)
    {
#pragma omp atomic write
        x = x + 1;
    }
    return x;
}
