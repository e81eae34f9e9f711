// Counters of four workers side by side: epoch e adds 1 to counter e mod 4, after some work.
//
// Report:
//> end done 16
//> at 00000040 04000000040000000400000004000000
//
// Conflicts: each epoch with the one four before it, which adds to the same counter. But the four counters lie in one line, so
// neighbours roll each other back too: false sharing. padded_counters gives each a line of its own.
// image: --epochs 16 --limit 200 --size 256
volatile unsigned counter[4] __attribute__((aligned(16)));

void body(unsigned epoch)
{
    unsigned old = counter[epoch & 3];
    unsigned work = epoch;
    for (unsigned i = 0; i < 4; i += 1) {
        work = (work << 1) ^ i;
        __asm__ volatile("" : "+r"(work));
    }
    counter[epoch & 3] = old + 1;
}
