int go;

int main(void)
{
#pragma omp parallel num_threads(2)
    {
        if (omp_get_thread_num() == 0) {
#pragma omp atomic write
            go = 1;
        } else {
            int seen = 0;
#pragma omp atomic write
            go = 0;
            while (!seen) {
#pragma omp atomic read
                seen = go;
            }
        }
    }
}
