// A text cut into words: epoch e has 16 characters of it, and writes where each word begins into a table of which `used` says how much is taken.
// image: --epochs 15 --stack 256
const char text[] = "the order of the memory operations of a loop is the order in which its epochs would have run one after the other and a machine that runs them "
                    "at the same time has to see to it that no epoch reads what an earlier one has not yet written, or else it runs again";
unsigned short begins[128];
unsigned used __attribute__((aligned(64)));

void body(unsigned epoch)
{
    volatile unsigned letter[17], begin[17];
    unsigned first = used, count = 0;
    for (unsigned i = 0; i < 16; i++) {
        letter[i + 1] = (unsigned char)text[16 * epoch + i];
        begin[i] = letter[i + 1] != ' ' && (i == 0 || letter[i] == ' ');
    }
    for (unsigned i = 0; i < 16; i++)
        if (begin[i])
            begins[first + count++] = (unsigned short)(16 * epoch + i);
    used = first + count;
}
