// CRC-32 of a text, a byte in each epoch, over a table that the first 16 epochs make.
//> end done 25
//> crc 00000 d9c60b34
//> result 00000 2639f4cb
//> table 00000 000000006410b71dc8206e3bac30d926
//> table 00010 9041dc76f4516b6b5861b24d3c710550
//> table 00020 2083b8ed44930ff0e8a3d6d68cb361cb
//> table 00030 b0c2649bd4d2d38678e20aa01cf2bdbd
// image: --epochs 25 --limit 300
const char text[] = "123456789";
unsigned table[16];
unsigned crc = 0xffffffff;
unsigned result;

void body(unsigned epoch)
{
    if (epoch < 16) {
        unsigned value = epoch;
        for (unsigned bit = 0; bit < 4; bit++) {
            value = value & 1 ? value >> 1 ^ 0xedb88320 : value >> 1;
        }
        table[epoch] = value;
        return;
    }
    unsigned sum = crc ^ (unsigned char)text[epoch - 16];
    sum = sum >> 4 ^ table[sum & 15];
    crc = sum >> 4 ^ table[sum & 15];
    result = ~crc;
}
