// Independent epochs: epoch e counts the steps of the Collatz sequence from
// e + 1 down to 1 and writes the count to its own byte.
//
// Report:
//> end done 16
//> at 00000050 000107020508100313060e0909111104
//
// Conflicts: none. No epoch reads what another one writes. All sixteen bytes lie
// in one line of 16 bytes, though, and a machine that marks whole words or lines
// may restart epochs all the same. The epochs take very different times (the one
// that starts from 9 takes 19 steps), so later ones finish before earlier ones
// and have to wait for their turn to commit.
// image: --epochs 16 --limit 1000 --size 256
unsigned char steps[16] __attribute__((aligned(16)));

void body(unsigned epoch)
{
    unsigned value = epoch + 1;
    unsigned count = 0;
    while (value != 1) {
        value = value & 1 ? (value << 1) + value + 1 : value >> 1;
        count += 1;
    }
    steps[epoch] = (unsigned char)count;
}
