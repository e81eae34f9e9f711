// A memory of version 2: epoch e adds to cells that lie 32,768 bytes apart.
//> end done 5
//> cells 00000 01000000000000000000000000000000
//> cells 08000 02000000000000000000000000000000
//> cells 10000 03000000000000000000000000000000
//> cells 18000 04000000000000000000000000000000
//> cells 20000 05000000000000000000000000000000
//> cells 27100 0f000000000000000000000000000000
//> cells 30d30 0000000000000000000000001f000000
// image: --epochs 5 --limit 100 --version 2
unsigned cells[50000] __attribute__((aligned(32)));

void body(unsigned epoch)
{
    cells[epoch << 13] += epoch + 1;
    cells[40000] += cells[epoch << 13];
    cells[49999] ^= 1u << epoch;
}
