// 64-bit arithmetic: a Weyl sequence that is mixed by xorshift, sums with carry, comparisons with sign and without.
//> end done 8
//> least 00000 04f908fa720f058a
//> mixed 00000 90a715f1689f280f94c18ab644107e8c
//> mixed 00010 a85f411a234e43e43c85071551b36b44
//> mixed 00020 206f28599eb87c6004f908fa720f058a
//> mixed 00030 18478ff5213f7936cdf55b0509cc8d33
//> most 00000 a85f411a234e43e4
//> weyl 00000 97aeff833313dff2
// image: --epochs 8 --limit 200
unsigned long long weyl = 0x0123456789abcdefULL;
unsigned long long mixed[8];
long long least = 0x7fffffffffffffffLL;
unsigned long long most;

void body(unsigned epoch)
{
    weyl += 0x9e3779b97f4a7c15ULL;
    unsigned long long x = weyl - epoch;
    x ^= x << 13;
    x ^= x >> 7;
    x ^= x << 17;
    mixed[epoch] = x;
    if ((long long)x < least) {
        least = (long long)x;
    }
    if (x > most) {
        most = x;
    }
}
