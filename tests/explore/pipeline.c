int done[2], a[3];

int main(void)
{
    a[0] = 1;
#pragma omp parallel for num_threads(2) schedule(static, 1)
    for (int i = 1; i < 3; i++) {
        int seen = i == 1;
        while (!seen) {
#pragma omp atomic read
            seen = done[i - 2];
        }
        a[i] = 2 * a[i - 1];
#pragma omp atomic write
        done[i - 1] = 1;
    }
    return a[2];
}
