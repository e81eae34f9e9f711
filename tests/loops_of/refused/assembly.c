//: assembly.c:5: has assembly, which may be another machine's
int main(void)
{
    int n = 0;
    for (int i = 0; i < 5; i++) __asm__ volatile("addi %0, %0, 1" : "+r"(n));
    return n;
}
