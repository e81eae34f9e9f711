// Error diffusion: epoch e makes column e of a picture black and white, and hands the error of its last pixel on to the next one in `carried`.
// image: --epochs 32 --stack 256
unsigned char grey[32][32], white[32][32];
int carried[1] __attribute__((aligned(64)));

void body(unsigned epoch)
{
    volatile int error[32];
    for (unsigned row = 0; row < 32; row++)
        error[row] = (int)(grey[row][epoch] + 7 * (row ^ epoch)) % 64;
    int left = carried[0];
    for (unsigned row = 0; row < 32; row++) {
        int value = error[row] + left / 2;
        white[row][epoch] = value > 31;
        left = value - (value > 31 ? 63 : 0);
    }
    carried[0] = left;
}
