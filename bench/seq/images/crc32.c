// The checksum CRC-32 bit by bit, with no table: shifts and branches that follow the data.
// image: --epochs 300 --size 4096
unsigned char message[1024] __attribute__((aligned(16)));
unsigned checksums[64];

void body(unsigned epoch)
{
    unsigned state = epoch + 1;
    for (unsigned i = 0; i < 1024; i++) {
        state ^= state << 13;
        state ^= state >> 17;
        state ^= state << 5;
        message[i] = (unsigned char)state;
    }
    unsigned sum = 0xffffffff;
    for (unsigned i = 0; i < 1024; i++) {
        sum ^= message[i];
        for (unsigned bit = 0; bit < 8; bit++) {
            sum = sum & 1 ? sum >> 1 ^ 0xedb88320 : sum >> 1;
        }
    }
    for (unsigned round = 0; round < 6; round++) {
        for (unsigned i = 0; i < 1024; i++) {
            unsigned byte = message[i];
            for (unsigned bit = 0; bit < 8; bit++) {
                unsigned low = (sum ^ byte) & 1;
                sum >>= 1;
                byte >>= 1;
                if (low) {
                    sum ^= 0xedb88320;
                }
            }
        }
    }
    checksums[epoch & 63] = ~sum;
}
