// The longest of Collatz's sequences from 512 numbers: a branch that is hard to predict, no memory.
// image: --epochs 600 --size 4096
unsigned longest[64] __attribute__((aligned(16)));

void body(unsigned epoch)
{
    unsigned most = 0;
    for (unsigned i = 1; i <= 512; i++) {
        unsigned number = epoch + i;
        unsigned steps = 0;
        while (number != 1) {
            number = number & 1 ? number + (number << 1) + 1 : number >> 1;
            steps++;
        }
        if (steps > most) {
            most = steps;
        }
    }
    longest[epoch & 63] = most;
}
