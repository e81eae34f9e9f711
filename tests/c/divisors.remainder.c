// The remainder of a division, by shifts and differences, since RV32I has none. It counts its calls.
unsigned calls;
unsigned remainder_of(unsigned number, unsigned divisor);

unsigned remainder_of(unsigned number, unsigned divisor)
{
    calls++;
    unsigned shifted = divisor;
    while (shifted <= number >> 1) {
        shifted <<= 1;
    }
    while (shifted >= divisor) {
        if (number >= shifted) {
            number -= shifted;
        }
        shifted >>= 1;
    }
    return number;
}
