// Products, quotients and 64-bit shifts by arithmetic.c: each of the functions there, with numbers of either sign.
//> end done 6
//> products 00000 bc02000000000000f2ffffffffffffff
//> products 00010 0a000000fbffffff00000080feffffff
//> products 00020 0000000000000000a0a2f5abfdffffff
//> shifted 00000 1032547698badcfe1032547698badcfe
//> shifted 00010 2064a8ec3075b9fd08192a3b4c5d6e7f
//> shifted 00020 0000000008192a3b3075b9fd01000000
//> shifted 00030 000000001032547698badcfe00000000
//> shifted 00040 000000002064a8ec4c5d6e7f00000000
//> shifted 00050 00000000000000000100000000000000
//> shifted_signed 00000 1032547698badcfe08192a3b4c5d6eff
//> shifted_signed 00010 3075b9fdffffffff98badcfeffffffff
//> shifted_signed 00020 4c5d6effffffffffffffffffffffffff
//> signed_results 00000 0e00000002000000fdffffffffffffff
//> signed_results 00010 343333f307000000565555d5feffffff
//> signed_results 00020 0000000000000000000000009f860100
//> unsigned_results 00000 0e00000002000000fcffff7f01000000
//> unsigned_results 00010 00000000ffffff7faaaaaa2a02000000
//> unsigned_results 00020 0000000000000000000000009f860100
// image: --epochs 6 --limit 30000 --stack 128
const int numbers[6] = {100, -7, 2147483647, -2147483647 - 1, 0, 99999};
const int divisors[6] = {7, 2, -10, 3, -5, -100000};
const unsigned char shifts[6] = {0, 1, 31, 32, 33, 63};
unsigned unsigned_results[6][2];
int signed_results[6][2];
long long products[6];
unsigned long long shifted[6][2];
long long shifted_signed[6];

void body(unsigned epoch)
{
    int number = numbers[epoch], divisor = divisors[epoch];
    unsigned_results[epoch][0] = (unsigned)number / (unsigned)divisor;
    unsigned_results[epoch][1] = (unsigned)number % (unsigned)divisor;
    signed_results[epoch][0] = number / divisor;
    signed_results[epoch][1] = number % divisor;
    products[epoch] = (long long)number * divisor;
    unsigned long long pattern = 0xfedcba9876543210ULL;
    shifted[epoch][0] = pattern << shifts[epoch];
    shifted[epoch][1] = pattern >> shifts[epoch];
    shifted_signed[epoch] = (long long)pattern >> shifts[epoch];
}
