// Sorts: each epoch makes 1024 numbers and puts them in order by Shell's method.
// image: --epochs 640 --size 8192
static const unsigned gaps[8] = {701, 301, 132, 57, 23, 10, 4, 1};
unsigned numbers[1024] __attribute__((aligned(16)));
unsigned middle[64];

void body(unsigned epoch)
{
    unsigned state = epoch + 1;
    for (unsigned i = 0; i < 1024; i++) {
        state ^= state << 13;
        state ^= state >> 17;
        state ^= state << 5;
        numbers[i] = state;
    }
    for (unsigned g = 0; g < 8; g++) {
        unsigned gap = gaps[g];
        for (unsigned i = gap; i < 1024; i++) {
            unsigned number = numbers[i];
            unsigned place = i;
            while (place >= gap && numbers[place - gap] > number) {
                numbers[place] = numbers[place - gap];
                place -= gap;
            }
            numbers[place] = number;
        }
    }
    middle[epoch & 63] = numbers[512];
}
