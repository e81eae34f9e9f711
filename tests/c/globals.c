// Variables of several widths, some with a value at the start, that each epoch changes.
//> end done 9
//> odd 00000 01
//> record 00000 87000000d4ffffff7f000000
//> signed_half 00000 ebff
//> small 00000 03
//> word 00000 22000000
// image: --epochs 9 --limit 100
#include <stdbool.h>
#include <stdint.h>
uint8_t small = 250;
int16_t signed_half = -3;
uint32_t word = 0xfffffffe;
bool odd;
struct {
    uint8_t tag;
    uint32_t total;
    uint16_t half;
} record = {7, 100, 0xffff};

void body(unsigned epoch)
{
    small++;
    signed_half = (int16_t)(signed_half - 2);
    word += epoch;
    odd = !odd;
    record.total -= epoch << 2;
    record.half = (uint16_t)(record.half >> 1);
    if (odd) {
        record.tag ^= 0x80;
    }
}
