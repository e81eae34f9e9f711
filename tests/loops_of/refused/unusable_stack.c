//! the program's stack ran out; --stack takes more than 131072
int down(int n, char *up)
{
    char c[1000];
    c[n & 7] = up[n & 3] + n;
    return n ? down(n - 1, c) + c[n & 7] : 0;
}
int main(void)
{
    char c[8] = "abc";
    int s = 0;
    for (int i = 0; i < 3; i++) s += down(200, c);
    return s & 1;
}
