// Two sources: the greatest common divisor of a pair of numbers, by remainders that the other source computes.
//> end done 7
//> calls 00000 11000000
//> divisors 00000 06000000010000000900000005000000
//> divisors 00010 0600000004000000ff000000
// image: --epochs 7 --limit 5000 --stack 64
unsigned remainder_of(unsigned number, unsigned divisor);

const unsigned pairs[7][2] = {{12, 18}, {17, 5}, {0, 9}, {1000, 35}, {270, 192}, {4, 4}, {65535, 255}};
unsigned divisors[7];

void body(unsigned epoch)
{
    unsigned a = pairs[epoch][0], b = pairs[epoch][1];
    while (b != 0) {
        unsigned rest = remainder_of(a, b);
        a = b;
        b = rest;
    }
    divisors[epoch] = a;
}
