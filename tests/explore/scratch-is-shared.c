#include <stdio.h>
int t, a[2];

int main(void)
{
#pragma omp parallel for num_threads(2)
    for (int i = 0; i < 2; i++) {
        t = i;
        a[i] = 10 * t;
    }
    printf("%d %d\n", a[0], a[1]);
}
