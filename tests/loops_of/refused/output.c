//: output.c:3: calls the system, which the machine hasn't \(output, input, the end\)
#include <stdio.h>
static void show(int i) { printf("%d\n", i); }
int main(void)
{
    for (int i = 0; i < 5; i++)
        show(i);
    return 0;
}
