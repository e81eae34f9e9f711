//: taken_from_stack.c:7: takes memory of the stack whose size or number isn't fixed \(alloca, .*\)
#include <alloca.h>
void use(char *p, int n) { p[0] = n; }
int main(void)
{
    volatile int s = 0;
    for (int i = 1; i < 9; i++) { char *p = alloca(i); use(p, i); s += p[i & 1]; }
    return s;
}
