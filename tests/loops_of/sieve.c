// Loops that are too long for an image as a whole, and one whose step isn't known before.
#include <stdio.h>
unsigned char sieve[100000];
int main(void)
{
    unsigned count = 0, x = 7, sum = 0;
    for (int i = 2; i < 100000; i++) { //: 1 99998 | carried count 9 (a reduction) | computed i
        if (sieve[i]) continue;
        count++;
        for (int j = 2 * i; j < 100000; j += i) //: 5133 256806 | computed j (by a multiplication)
            sieve[j] = 1;
    }
    for (int i = 0; i < 200000; i++) { //: 1 200000 | carried sum 15 (a reduction), x 14 | computed i
        x = x * 5 + 1;
        sum += sieve[x % 100000];
    }
    printf("%u %u\n", count, sum);
    return 0;
}
