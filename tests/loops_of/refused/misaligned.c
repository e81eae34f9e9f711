//: misaligned.c:6: its iteration 1 loads or stores at an address that isn't a multiple of the size, .*
char bytes[64] __attribute__((aligned(4)));
int main(void)
{
    int sum = 0;
    for (char *at = bytes; at < bytes + 40; at += 5) sum += *(int *)at;
    return sum;
}
