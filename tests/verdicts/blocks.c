// An allocator: each epoch takes a block from the front of the list that begins at `unused`, works in it,
// and takes it off the list unless it puts it back.
// image: --epochs 24 --stack 256
unsigned unused __attribute__((aligned(64)));
const unsigned char follows[24] = {1, 2, 3, 4, 5, 6, 7, 8, 9, 10, 11, 12, 13, 14, 15, 16, 17, 18, 19, 20, 21, 22, 23, 0};
unsigned block[24][16], sums[24];

void body(unsigned epoch)
{
    volatile unsigned seen[32];
    unsigned mine = unused;
    for (unsigned i = 0; i < 16; i++) {
        block[mine][i] = epoch + i;
        seen[i] = epoch ^ i;
        seen[16 + i] = seen[i] + i;
    }
    unsigned sum = 0;
    for (unsigned i = 0; i < 16; i++)
        sum += seen[i] ^ seen[16 + i];
    sums[epoch] = sum;
    unused = (epoch & 3) == 3 ? mine : follows[mine];
}
