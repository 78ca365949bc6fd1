int want[2], inside, both;

int main(void)
{
#pragma omp parallel num_threads(2)
    {
        int me = omp_get_thread_num();
        want[me] = 1;
        if (!want[1 - me]) {
            inside++;
            if (inside != 1)
                both = 1;
            inside--;
        }
    }
    return both;
}
