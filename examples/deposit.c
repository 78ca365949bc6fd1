#include <stdio.h>

int balance;

void deposit(int amount)
{
    int old;
    old = balance;
    balance = old + amount;
}

int main(void)
{
    balance = 100;
#pragma omp parallel num_threads(2)
    {
        for (int i = 0; i < 2; i++)
            deposit(10);
    }
    printf("balance = %d, expected 140\n", balance);
    return 0;
}
