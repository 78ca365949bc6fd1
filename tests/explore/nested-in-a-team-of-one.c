int width;

int main(void)
{
#pragma omp parallel num_threads(1)
#pragma omp parallel num_threads(2)
#pragma omp atomic
    width += omp_get_num_threads();
    return width;
}
