// A stream cipher in the manner of ChaCha: epoch e enciphers block e, and what it needs of the epoch before is the counter in state[12].
// image: --epochs 24 --stack 256
unsigned state[16] __attribute__((aligned(64))) = {0x61707865, 0x3320646e, 0x79622d32, 0x6b206574, 1, 2, 3, 4, 5, 6, 7, 8, 0, 9, 10, 11};
unsigned block[24][16] __attribute__((aligned(64)));

static unsigned turned(unsigned word, unsigned by) { return word << by | word >> (32 - by); }

static void quarter(volatile unsigned *x, unsigned a, unsigned b, unsigned c, unsigned d)
{
    x[a] += x[b]; x[d] = turned(x[d] ^ x[a], 16);
    x[c] += x[d]; x[b] = turned(x[b] ^ x[c], 12);
}

void body(unsigned epoch)
{
    volatile unsigned x[16];
    for (unsigned i = 0; i < 16; i++)
        x[i] = state[i];
    for (unsigned round = 0; round < 4; round++)
        for (unsigned i = 0; i < 4; i++)
            quarter(x, i, 4 + i, 8 + i, 12 + (i + round) % 4);
    for (unsigned i = 0; i < 16; i++)
        block[epoch][i] ^= x[i] + state[i];
    state[12] += 1;
}
