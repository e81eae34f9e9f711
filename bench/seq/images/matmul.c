// The product of two matrices of 24 rows, by sums of shifted numbers: RV32I has no multiplication.
// image: --epochs 250 --size 16384
unsigned left[24][32] __attribute__((aligned(16)));
unsigned right[24][32];
unsigned product[24][32];

static unsigned times(unsigned a, unsigned b)
{
    unsigned sum = 0;
    while (b != 0) {
        if (b & 1) {
            sum += a;
        }
        a <<= 1;
        b >>= 1;
    }
    return sum;
}

void body(unsigned epoch)
{
    for (unsigned i = 0; i < 24; i++) {
        for (unsigned j = 0; j < 24; j++) {
            left[i][j] = i + j + epoch;
            right[i][j] = (i ^ j) + (epoch & 7);
        }
    }
    for (unsigned i = 0; i < 24; i++) {
        for (unsigned j = 0; j < 24; j++) {
            unsigned sum = 0;
            for (unsigned k = 0; k < 24; k++) {
                sum += times(left[i][k], right[k][j]);
            }
            product[i][j] = sum;
        }
    }
}
