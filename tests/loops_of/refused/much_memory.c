//: the image has \d+ bytes of text, more than 1048576: too much memory is in use
unsigned a[100000];
int main(void)
{
    for (unsigned i = 0, s = 1; i < 100000; i++) a[i] = s = s * 1103515245u + 12345u;
    for (int i = 1; i < 5; i++) a[i] += a[i - 1];
    return 0;
}
