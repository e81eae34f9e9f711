//: no_copy.c:9: calls others, and its function has a computed goto, so that there can be no copy of it
int again(int);
int count(int n)
{
    static void *at[] = {&&one, &&none};
    int s = 0;
    goto *at[n & 1];
one: s = 1;
none: for (int i = 0; i < n; i++) s += again(i);
    return s;
}
int again(int n) { return n > 1 ? count(n - 1) : n; }
int main(void) { return count(3); }
