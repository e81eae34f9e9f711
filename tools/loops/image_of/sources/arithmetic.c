// Multiplication, division and 64-bit shifts for RV32I, which has none: the functions that compilers call for them, by the
// names of libgcc. A further source for tools/image-of: it goes with --stack, since a function that calls needs one.
typedef unsigned long long wide;

unsigned __mulsi3(unsigned a, unsigned b);
wide __muldi3(wide a, wide b);
unsigned __udivsi3(unsigned number, unsigned divisor);
unsigned __umodsi3(unsigned number, unsigned divisor);
int __divsi3(int number, int divisor);
int __modsi3(int number, int divisor);
wide __ashldi3(wide number, int by);
wide __lshrdi3(wide number, int by);
wide __ashrdi3(wide number, int by);

unsigned __mulsi3(unsigned a, unsigned b)
{
    unsigned sum = 0;
    for (; b != 0; b >>= 1) {
        sum += b & 1 ? a : 0;
        a <<= 1;
    }
    return sum;
}

wide __muldi3(wide a, wide b)
{
    wide sum = 0;
    for (; b != 0; b >>= 1) {
        sum += b & 1 ? a : 0;
        a <<= 1;
    }
    return sum;
}

struct divided {
    unsigned quotient, rest;
};

// As the manual's DIVU and REMU: by 0 the quotient has all bits, and the rest is the number.
static inline struct divided divided(unsigned number, unsigned divisor)
{
    struct divided result = {0, 0};
    for (unsigned bit = 0; bit < 32; bit++) {
        unsigned carry = result.rest >> 31;
        result.rest = result.rest << 1 | number >> 31;
        number <<= 1;
        result.quotient <<= 1;
        if (carry != 0 || result.rest >= divisor) {
            result.rest -= divisor;
            result.quotient |= 1;
        }
    }
    return result;
}

static inline unsigned magnitude(int number)
{
    return number < 0 ? 0u - (unsigned)number : (unsigned)number;
}

unsigned __udivsi3(unsigned number, unsigned divisor)
{
    return divided(number, divisor).quotient;
}

unsigned __umodsi3(unsigned number, unsigned divisor)
{
    return divided(number, divisor).rest;
}

int __divsi3(int number, int divisor)
{
    unsigned quotient = divided(magnitude(number), magnitude(divisor)).quotient;
    return (int)((number < 0) != (divisor < 0) ? 0u - quotient : quotient);
}

int __modsi3(int number, int divisor)
{
    unsigned rest = divided(magnitude(number), magnitude(divisor)).rest;
    return (int)(number < 0 ? 0u - rest : rest);
}

static inline wide of_halves(unsigned low, unsigned high)
{
    union {
        unsigned halves[2];
        wide whole;
    } made = {{low, high}};
    return made.whole;
}

wide __ashldi3(wide number, int by)
{
    unsigned low = (unsigned)number, high = (unsigned)(number >> 32);
    if (by >= 32) {
        return of_halves(0, low << (by - 32));
    }
    return by == 0 ? number : of_halves(low << by, high << by | low >> (32 - by));
}

wide __lshrdi3(wide number, int by)
{
    unsigned low = (unsigned)number, high = (unsigned)(number >> 32);
    if (by >= 32) {
        return of_halves(high >> (by - 32), 0);
    }
    return by == 0 ? number : of_halves(low >> by | high << (32 - by), high >> by);
}

wide __ashrdi3(wide number, int by)
{
    unsigned low = (unsigned)number;
    int high = (int)(number >> 32);
    if (by >= 32) {
        return of_halves((unsigned)(high >> (by - 32)), (unsigned)(high >> 31));
    }
    return by == 0 ? number : of_halves(low >> by | (unsigned)high << (32 - by), (unsigned)(high >> by));
}
