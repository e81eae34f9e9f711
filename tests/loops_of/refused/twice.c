//: twice.c:7: calls a function that returns twice \(setjmp\)
#include <setjmp.h>
jmp_buf back;
int main(void)
{
    volatile int s = 0;
    for (int i = 0; i < 5; i++) if (setjmp(back) == 0) s += i;
    return s;
}
