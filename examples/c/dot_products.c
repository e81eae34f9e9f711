// A matrix times a vector: epoch e writes the product of row e with the vector.
// RV32I has no multiplication, so the source brings its own.
//
// Report:
//> end done 4
//> at 000000c0 2e00000003000000bf01000046000000
//
// Conflicts: none. All epochs read the vector, but nobody writes it; reading the
// same bytes is no conflict.
// image: --epochs 4 --limit 2000 --size 512
const int matrix[4][4] = {
    {1, 2, 3, 4},
    {-1, 0, 0, 1},
    {100, 10, 1, 0},
    {7, -7, 7, -7},
};
const int vector[4] = {5, -6, 7, 8};
int products[4] __attribute__((aligned(16)));

static inline unsigned product(unsigned a, unsigned b)
{
    unsigned sum = 0;
    while (b != 0) {
        if (b & 1) {
            sum += a;
        }
        a <<= 1;
        b >>= 1;
    }
    return sum;
}

void body(unsigned epoch)
{
    unsigned sum = 0;
    for (unsigned column = 0; column < 4; column++) {
        sum += product((unsigned)vector[column], (unsigned)matrix[epoch][column]);
    }
    products[epoch] = (int)sum;
}
