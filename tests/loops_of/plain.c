// The loops of examples/c as they stand in a program: the gains of their images have to be those of the images by hand.
static const int samples[12] = {21, 17, 35, 4, 8, 35, 60, 2, 11, 59, 7, 3};
static const unsigned char bytes[16] = {3, 1, 4, 1, 5, 9, 2, 6, 5, 3, 5, 8, 9, 7, 9, 3};
static const char text[64] = "the quick brown fox jumps over a lazy dog, then fixes the mixer.";
static const unsigned keys[8] = {0x25, 0x13, 0x45, 0x81, 0x26, 0x7c, 0x2d, 0x93};
unsigned bins[12] __attribute__((aligned(16)));
unsigned terms[16] __attribute__((aligned(16))) = {0, 1};
unsigned slots[16] __attribute__((aligned(16)));
unsigned char steps[16] __attribute__((aligned(16)));
struct node { struct node *next; unsigned value; };
struct node nodes[5] __attribute__((aligned(16))) = {
    {&nodes[3], 0x00000001}, {&nodes[4], 0x0000000f}, {0, 0x12345678}, {&nodes[1], 0x80000000}, {&nodes[2], 0xffff0000},
};
static unsigned reversed(unsigned value)
{
    unsigned result = 0;
    for (unsigned bit = 0; bit < 32; bit++) {
        result = result << 1 | (value & 1);
        value >>= 1;
    }
    return result;
}
static void insert(unsigned key)
{
    unsigned slot = key & 15;
    while (slots[slot] != 0) slot = (slot + 1) & 15;
    slots[slot] = key;
}
int main(void)
{
    int largest = 0, where = 0;
    unsigned count = 0, first = 64;
    for (int i = 0; i < 16; i++) bins[bytes[i]] += 1; // histogram
    for (int i = 0; i < 12; i++) if (samples[i] > largest) { largest = samples[i]; where = i; } // maximum
    for (int i = 2; i < 16; i++) terms[i] = terms[i - 1] + terms[i - 2]; // recurrence
    for (struct node *one = nodes; one; one = one->next) one->value = reversed(one->value); // list_walk
    for (int i = 0; i < 8; i++) insert(keys[i]); // hash_insert
    for (unsigned i = 0; i < 16; i++) { // independent
        unsigned value = i + 1, tries = 0;
        for (; value != 1; tries++) value = value & 1 ? (value << 1) + value + 1 : value >> 1;
        steps[i] = tries;
    }
    for (unsigned i = 0; i < 64; i += 8) // byte_search
        for (unsigned place = i; place < i + 8; place++)
            if (text[place] == 'x') {
                count += 1;
                if (place < first) first = place;
            }
    return largest + where + (terms[15] & 7) + (nodes[3].value & 3) + count + first;
}
