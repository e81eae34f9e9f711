// own_counters with a line for each counter.
//
// Report:
//> end done 16
//> at 00000040 04000000000000000000000000000000
//> at 00000050 04000000000000000000000000000000
//> at 00000060 04000000000000000000000000000000
//> at 00000070 04000000000000000000000000000000
//
// Conflicts: each epoch with the one four before it, and no other: on up to four cores none of them rolls back.
// image: --epochs 16 --limit 200 --size 256
volatile struct { unsigned n, pad[3]; } counter[4] __attribute__((aligned(16)));

void body(unsigned epoch)
{
    unsigned old = counter[epoch & 3].n;
    unsigned work = epoch;
    for (unsigned i = 0; i < 4; i += 1) {
        work = (work << 1) ^ i;
        __asm__ volatile("" : "+r"(work));
    }
    counter[epoch & 3].n = old + 1;
}
