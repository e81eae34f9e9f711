// Ways to place queens on a board of 5 x 5: epoch e begins with one in column e % 5, and counts each way in `ways`.
// image: --epochs 10 --stack 512 --limit 100000
unsigned ways __attribute__((aligned(64)));

static void place(unsigned row, unsigned columns, unsigned left, unsigned right)
{
    if (row == 5) {
        ways += 1;
        return;
    }
    for (unsigned column = 0; column < 5; column++) {
        unsigned bit = 1u << column;
        if (!((columns | left | right) & bit))
            place(row + 1, columns | bit, (left | bit) << 1, (right | bit) >> 1);
    }
}

void body(unsigned epoch)
{
    unsigned bit = 1u << epoch % 5;
    place(1, bit, bit << 1, bit >> 1);
}
