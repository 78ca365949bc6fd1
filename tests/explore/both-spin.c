int a, b;

int main(void)
{
#pragma omp parallel sections num_threads(2)
    {
        {
            while (!a)
                ;
            b = 1;
        }
#pragma omp section
        {
            while (!b)
                ;
            a = 1;
        }
    }
}
