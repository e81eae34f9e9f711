// A copy byte by byte, back and forth between two buffers.
// image: --epochs 250 --size 12288
unsigned char here[4096] __attribute__((aligned(16)));
unsigned char there[4096];

void body(unsigned epoch)
{
    here[epoch * 16] = (unsigned char)(epoch + 1);
    for (unsigned round = 0; round < 18; round++) {
        for (unsigned i = 0; i < 4096; i++) {
            there[i] = here[i];
        }
        for (unsigned i = 1; i < 4096; i++) {
            here[i] = there[i - 1];
        }
    }
}
