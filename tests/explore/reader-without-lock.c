int low, high, torn;

int main(void)
{
#pragma omp parallel num_threads(2)
    {
        if (omp_get_thread_num() == 0) {
#pragma omp critical
            {
                low = 1;
                high = 1;
            }
        } else if (low != high)
            torn = 1;
    }
    return torn;
}
