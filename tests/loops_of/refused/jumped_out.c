//: the program ends within it, or leaves it by longjmp
#include <setjmp.h>
jmp_buf back;
int n;
void next(void) { if (++n == 5) longjmp(back, 1); }
int main(void)
{
    if (setjmp(back)) return n;
    for (;;) next();
}
