// Recursion with a stack per epoch: the moves of the towers of Hanoi with e discs, and Ackermann's function of (2, e).
//> end done 5
//> ackermann_of_2 00000 03000000050000000700000009000000
//> ackermann_of_2 00010 0b000000
//> moves 00000 00000000010000000300000007000000
//> moves 00010 0f000000
// image: --epochs 5 --limit 20000 --stack 1024
unsigned moves[5];
unsigned ackermann_of_2[5];

static __attribute__((noinline)) unsigned hanoi(unsigned discs, unsigned from, unsigned to)
{
    if (discs == 0) {
        return 0;
    }
    unsigned other = 3 - from - to;
    return hanoi(discs - 1, from, other) + 1 + hanoi(discs - 1, other, to);
}

static __attribute__((noinline)) unsigned ackermann(unsigned m, unsigned n)
{
    if (m == 0) {
        return n + 1;
    }
    return ackermann(m - 1, n == 0 ? 1 : ackermann(m, n - 1));
}

void body(unsigned epoch)
{
    moves[epoch] = hanoi(epoch, 0, 2);
    ackermann_of_2[epoch] = ackermann(2, epoch);
}
