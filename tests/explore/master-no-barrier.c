int x, bad;

int main(void)
{
#pragma omp parallel num_threads(2)
    {
#pragma omp master
        x = 3;
        if (x != 3)
            bad = 1;
    }
    return bad;
}
