//: variable_length.c:6: looks at the stack of its function \(an array of variable length, va_arg\)
void use(int *p, int n) { p[n - 1] = n; }
int main(void)
{
    int s = 0;
    for (int i = 1; i < 9; i++) { int a[i]; use(a, i); s += a[i - 1]; }
    return s;
}
