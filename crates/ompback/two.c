int a, b;
int main(void){
#pragma omp parallel
while (1) if (omp_get_thread_num() == 0) a = a + 1; else b = b + 1;
}
