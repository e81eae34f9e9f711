//: atomic.c:5: an atomic access, and epochs are ordered without
int n;
int main(void)
{
    for (int i = 0; i < 5; i++) __atomic_fetch_add(&n, 1, __ATOMIC_SEQ_CST);
    return n;
}
