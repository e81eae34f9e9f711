// Arrays of frames: an iteration's own, an address of which LLVM makes before the loop; those of functions that
// called the loop's; and those of a function that comes again, whose frame has one of variable length besides.
static int level[40];

static __attribute__((noinline)) void fill(int *to, int with)
{
    for (int i = 0; i < 4; i++) //: 35 140 | computed i
        to[i] = (with * 7 + i * 3) & 15;
}

static __attribute__((noinline)) void hints(void)
{
    for (int i = 0; i < 30; i++) { //: 1 30 | computed i | own hint
        int hint[4];
        fill(hint, i);
        for (int *at = hint; at < hint + 4; at++) //: 30 120 | computed at
            level[i] += *at;
    }
}

static __attribute__((noinline)) int sum_of(const int *of, int count)
{
    int sum = 0;
    for (int i = 0; i < count; i++) //: 1 24 | carried sum 25 (a reduction) | computed i
        sum += of[i];
    return sum;
}

static __attribute__((noinline)) int thrice(const int *table, int count)
{
    int copy[24];
    for (int i = 0; i < count; i++) //: 1 24 | computed i
        copy[i] = 3 * table[i];
    return sum_of(copy, count) + copy[5];
}

static __attribute__((noinline)) void ones(int *to, int count)
{
    for (int i = 0; i < count; i++) //: 13 91 | computed i
        to[i] = 1;
}

static __attribute__((noinline)) int tree(int depth, int width)
{
    int kept[4] = {depth, width, 0, 0}, few[2 * width + 1];
    ones(few, 2 * width + 1);
    for (int i = 0; i < width; i++) //: 13 39 | computed i
        kept[i & 3] += depth > 0 ? tree(depth - 1, width) : few[width] + i;
    return kept[0] + kept[1] + kept[2] + kept[3];
}

// (the address of an array that isn't there any more stays behind)
static int *left;

static __attribute__((noinline)) void leave(void)
{
    for (int i = 0; i < 5; i++) { //: 1 5 | computed i | own last
        int last[4];
        fill(last, i);
        left = last;
    }
}

int main(void)
{
    int table[24];
    for (int i = 0; i < 24; i++) //: 1 24 | computed i
        table[i] = i * i;
    for (int i = 0; i < level[39]; i++) //: not entered
        table[i] = 0;
    hints();
    leave();
    return (thrice(table, 24) + tree(2, 3) + level[7] + table[3]) & 127;
}
