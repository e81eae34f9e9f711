// A row of a matrix times a vector in each epoch, and the sum of all rows in `total`.
// image: --epochs 24 --stack 256
unsigned char matrix[24][24], vector[24];
unsigned row_sum[24], total[1] __attribute__((aligned(64)));

void body(unsigned epoch)
{
    volatile unsigned part[24];
    for (unsigned i = 0; i < 24; i++)
        part[i] = (matrix[epoch][i] + i + epoch) << (vector[i] & 3);
    unsigned sum = 0;
    for (unsigned i = 0; i < 24; i++)
        sum += part[i];
    row_sum[epoch] = sum;
    total[0] += sum;
}
