//: exception.c:11: calls what may leave it by an exception
// options: --cflags=-fexceptions
static int left;
static void leave(int *n) { left += *n; }
static int twice(int n) { return n * 2; }
int main(void)
{
    int s = 0, (*volatile other)(int) = twice;
    for (int i = 0; i < 5; i++) {
        int n __attribute__((cleanup(leave))) = i;
        s += other(n);
    }
    return s + left;
}
