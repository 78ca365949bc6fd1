int a[2], most;

int main(void)
{
    a[0] = 9;
    a[1] = 4;
#pragma omp parallel for num_threads(2)
    for (int i = 0; i < 2; i++)
        if (a[i] > most) {
#pragma omp critical
            most = a[i];
        }
    return most;
}
