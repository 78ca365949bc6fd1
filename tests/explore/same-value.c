int found;

int main(void)
{
#pragma omp parallel for num_threads(2) schedule(static, 1)
    for (int i = 0; i < 2; i++)
        if (i < 5)
            found = 1;
    return found;
}
