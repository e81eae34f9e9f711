// Arithmetic in registers alone: shifts, sums, comparisons and logic.
// image: --epochs 250 --size 512
unsigned results[64] __attribute__((aligned(16)));

void body(unsigned epoch)
{
    unsigned a = epoch + 1;
    unsigned b = 0x9e3779b9;
    unsigned c = epoch << 4;
    unsigned d = 0;
    int e = 0;
    for (unsigned i = 0; i < 20000; i++) {
        a ^= a << 13;
        a ^= a >> 17;
        a ^= a << 5;
        b += a;
        c = (c << 7 | c >> 25) ^ b;
        d += a < c;
        e += ((int)b < (int)c) - (e >> 3);
        b = (b | 0x55) - (c & d);
    }
    results[epoch & 63] = a ^ b ^ c ^ d ^ (unsigned)e;
}
