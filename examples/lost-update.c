int x;

int main(void)
{
#pragma omp parallel
    x = x + 1;
    return x;
}
