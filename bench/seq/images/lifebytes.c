// The game of life on a torus of 64 by 64 cells, a byte each: nine loads and a store a cell.
// image: --epochs 800 --size 65536 --stack 64
unsigned char world[2][64][64] __attribute__((aligned(16)));

void body(unsigned epoch)
{
    unsigned now = epoch & 1;
    if (epoch == 0) {
        unsigned state = 1;
        for (unsigned row = 0; row < 64; row++) {
            for (unsigned column = 0; column < 64; column++) {
                state ^= state << 13;
                state ^= state >> 17;
                state ^= state << 5;
                world[0][row][column] = state & 1;
            }
        }
    }
    for (unsigned row = 0; row < 64; row++) {
        const unsigned char *above = world[now][(row - 1) & 63];
        const unsigned char *here = world[now][row];
        const unsigned char *below = world[now][(row + 1) & 63];
        unsigned char *next = world[1 - now][row];
        for (unsigned column = 0; column < 64; column++) {
            unsigned west = (column - 1) & 63;
            unsigned east = (column + 1) & 63;
            unsigned around = above[west] + above[column] + above[east] + here[west] + here[east]
                + below[west] + below[column] + below[east];
            next[column] = around == 3 || (around == 2 && here[column]);
        }
    }
}
