/* bank.c, mended: deposits and withdrawals have critical sections of one name */
#include <stdio.h>
#include <omp.h>

int balance = 100;

void deposit(int amount)
{
    #pragma omp critical(account)
    balance += amount;
}

void withdraw(int amount)
{
    #pragma omp critical(account)
    {
        if (balance >= amount)
            balance -= amount;
    }
}

int main()
{
    #pragma omp parallel sections
    {
        #pragma omp section
        {
            for (int i = 0; i < 3; i++)
                deposit(10);
        }
        #pragma omp section
        {
            for (int i = 0; i < 3; i++)
                withdraw(20);
        }
    }
    printf("balance = %d, expected 70\n", balance);
    return 0;
}
