int data, flag, seen;

int main(void)
{
#pragma omp parallel num_threads(2)
    {
        if (omp_get_thread_num() == 0) {
            data = 1;
#pragma omp flush
            flag = 1;
        } else {
            if (flag) {
#pragma omp flush
                seen = data + 1;
            }
        }
    }
    return seen;
}
