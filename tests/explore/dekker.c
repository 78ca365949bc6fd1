int want[2], inside, both;

int main(void)
{
#pragma omp parallel num_threads(2)
    {
        int me = omp_get_thread_num(), other;
#pragma omp atomic write seq_cst
        want[me] = 1;
#pragma omp atomic read seq_cst
        other = want[1 - me];
        if (!other) {
            inside++;
            if (inside != 1)
                both = 1;
            inside--;
        }
    }
    return both;
}
