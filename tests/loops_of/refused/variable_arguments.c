//: variable_arguments.c:6: calls others, and its function has a variable number of arguments, .* no copy of it
int again(int);
static int sum(int n, ...)
{
    int s = 0;
    for (int i = 0; i < n; i++) s += again(i);
    return s;
}
int again(int n) { return n > 1 ? sum(n - 1) : n; }
int main(void) { return sum(3, 1, 2, 3); }
