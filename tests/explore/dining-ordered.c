int eaten;

int main(void)
{
#pragma omp parallel num_threads(2)
    {
        if (omp_get_thread_num() == 0) {
#pragma omp critical(left)
            {
#pragma omp critical(right)
                eaten++;
            }
        } else {
#pragma omp critical(left)
            {
#pragma omp critical(right)
                eaten++;
            }
        }
    }
    return eaten;
}
