// Arrays of bytes, halfwords and words: epoch e writes the sums of its row, with sign and without.
//> end done 6
//> last 00000 05000100ff05
//> magnitudes 00000 0f007d010201000005002300
//> running 00000 00000000030000008001000082000000
//> running 00010 820000007d000000a000000000000000
//> sums 00000 03007d0102ff0000fbff2300
// image: --epochs 6 --limit 500
const signed char rows[6][5] = {{1, -2, 3, -4, 5}, {127, 127, 127, 0, 0}, {-128, -128, 0, 1, 1}, {0}, {-1, -1, -1, -1, -1}, {9, 8, 7, 6, 5}};
short sums[6];
unsigned short magnitudes[6];
unsigned char last[6];
int running[8];

void body(unsigned epoch)
{
    int sum = 0;
    unsigned magnitude = 0;
    for (unsigned i = 0; i < 5; i++) {
        int value = rows[epoch][i];
        sum += value;
        magnitude += (unsigned)(value < 0 ? -value : value);
    }
    sums[epoch] = (short)sum;
    magnitudes[epoch] = (unsigned short)magnitude;
    last[epoch] = (unsigned char)rows[epoch][4];
    running[epoch + 1] = running[epoch] + sum;
}
