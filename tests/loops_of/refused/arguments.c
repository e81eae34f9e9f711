//: arguments.c:7: looks at the stack of its function \(an array of variable length, va_arg\)
#include <stdarg.h>
static int sum(int n, ...)
{
    int s = 0;
    va_list all;
    for (int i = 0; i < 3; i++) { va_start(all, n); s += va_arg(all, int); va_end(all); }
    return s;
}
int main(void) { return sum(1, 5); }
