//! the program didn't end in 1 seconds; --seconds takes more
// options: --seconds=1
volatile int n;
int main(void) { for (;;) n++; }
