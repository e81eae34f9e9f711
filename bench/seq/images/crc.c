// Checksums: epoch 0 makes the table of CRC-32 and a message, and every epoch adds
// the message to the checksum some times.
// image: --epochs 300 --size 8192
unsigned table[256] __attribute__((aligned(16)));
unsigned char message[4096];
unsigned checksum;

static inline void prepare(void)
{
    unsigned state = 1;
    for (unsigned i = 0; i < 256; i++) {
        unsigned entry = i;
        for (unsigned bit = 0; bit < 8; bit++) {
            entry = entry & 1 ? entry >> 1 ^ 0xedb88320 : entry >> 1;
        }
        table[i] = entry;
    }
    for (unsigned i = 0; i < 4096; i++) {
        state ^= state << 13;
        state ^= state >> 17;
        state ^= state << 5;
        message[i] = (unsigned char)state;
    }
}

void body(unsigned epoch)
{
    if (epoch == 0) {
        prepare();
    }
    unsigned sum = ~checksum;
    for (unsigned round = 0; round < 12; round++) {
        for (unsigned i = 0; i < 4096; i++) {
            sum = sum >> 8 ^ table[(sum ^ message[i]) & 255];
        }
    }
    checksum = ~sum;
}
