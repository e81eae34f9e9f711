//! the program faults: .* at main\+\d+, address [0-9a-f]{8}, unusable_fault.c:3
volatile unsigned at = 0x500000;
int main(void) { for (int i = 0; i < 5; i++) *(int *)at = i; return 0; }
