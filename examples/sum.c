int total;

int main(void)
{
    total = 40;
    total = total + 2;
    return total;
}
