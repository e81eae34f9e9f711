//: long_iteration.c:5: its iteration 0 takes more than 1000000 instructions
volatile int x;
int main(void)
{
    for (int i = 0; i < 2; i++) for (int j = 0; j < 400000; j++) x = j;
    return 0;
}
