// Strings: epoch e measures word e, compares it with the word before it and writes it in capitals, turned round.
//> end done 6
//> lengths 00000 05000000080000000400000005000000
//> lengths 00010 0100000008000000
//> order 00000 00010101ffff
//> turned 00000 48434f50450000000000000045455246
//> turned 00010 454d4f4800000000454e494c00000000
//> turned 00020 0000000053454e494c00000000000000
//> turned 00030 41000000000000000000000039485349
//> turned 00040 4c42555000000000
// image: --epochs 6 --limit 2000 --stack 64
const char words[6][12] = {"epoch", "homefree", "line", "lines", "a", "Publish9"};
unsigned lengths[6];
signed char order[6];
char turned[6][12];

void body(unsigned epoch)
{
    const char *word = words[epoch];
    unsigned length = 0;
    while (word[length] != 0) {
        length++;
    }
    lengths[epoch] = length;
    for (unsigned i = 0; i < length; i++) {
        char letter = word[length - 1 - i];
        turned[epoch][i] = letter >= 'a' && letter <= 'z' ? (char)(letter - 32) : letter;
    }
    if (epoch > 0) {
        const char *before = words[epoch - 1];
        unsigned at = 0;
        while (word[at] != 0 && word[at] == before[at]) {
            at++;
        }
        order[epoch] = (signed char)(word[at] < before[at] ? -1 : word[at] > before[at]);
    }
}
