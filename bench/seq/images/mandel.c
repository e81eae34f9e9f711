// Mandelbrot's set by 16 bits of fraction: a multiplication of signed numbers by shifts and sums.
// image: --epochs 320 --size 65536 --stack 128
unsigned char picture[32][64] __attribute__((aligned(16)));

static int times(int a, int b)
{
    int negative = (a < 0) != (b < 0);
    unsigned left = a < 0 ? -a : a;
    unsigned right = b < 0 ? -b : b;
    unsigned low = 0;
    unsigned high = 0;
    for (unsigned bit = 0; bit < 20; bit++) {
        if (right >> bit & 1) {
            unsigned sum = low + (left << bit);
            high += (sum < low) + (bit ? left >> (32 - bit) : 0);
            low = sum;
        }
    }
    int result = (int)(low >> 16 | high << 16);
    return negative ? -result : result;
}

void body(unsigned epoch)
{
    int y = ((int)(epoch & 31) - 16) * 4096;
    for (unsigned column = 0; column < 64; column++) {
        int x = ((int)column - 44) * 3072;
        int a = 0;
        int b = 0;
        unsigned steps = 0;
        while (steps < 24) {
            int aa = times(a, a);
            int bb = times(b, b);
            if (aa + bb > 4 << 16) {
                break;
            }
            b = 2 * times(a, b) + y;
            a = aa - bb + x;
            steps++;
        }
        picture[epoch & 31][column] = (unsigned char)steps;
    }
}
