int part[2], sum;

int main(void)
{
#pragma omp parallel num_threads(2)
    {
        int me = omp_get_thread_num();
        part[me] = me + 1;
#pragma omp master
        sum = part[0] + part[1];
    }
    return sum;
}
