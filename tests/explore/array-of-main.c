int main(void)
{
    int n = 0, a[2];
#pragma omp parallel num_threads(2)
    {
        int place = n;
        n = n + 1;
        a[place] = omp_get_thread_num();
    }
    return n;
}
