// Loads and stores of words: two arrays are added into a third and that back.
// image: --epochs 250 --size 16384
unsigned left[1024] __attribute__((aligned(16)));
unsigned right[1024];
unsigned sum[1024];

void body(unsigned epoch)
{
    left[epoch] = epoch + 1;
    right[1023 - epoch] = epoch ^ 0x5555;
    for (unsigned round = 0; round < 30; round++) {
        for (unsigned i = 0; i < 1024; i++) {
            sum[i] += left[i] + right[i];
        }
        for (unsigned i = 0; i < 1023; i++) {
            left[i] = sum[i + 1];
        }
    }
}
