// Structures and insertion sort: epoch e sorts its own six records by key, equal keys in the order in which they stood.
//> end done 3
//> records 00000 00806500ffff62000000640005006100
//> records 00010 05006300ff7f66000100610002006200
//> records 00020 03006300040064000500650006006600
//> records 00030 02006500020066000400630004006400
//> records 00040 0600610006006200
// image: --epochs 3 --limit 3000 --stack 64
struct record {
    short key;
    unsigned char name;
} records[3][6] = {
    {{5, 'a'}, {-1, 'b'}, {5, 'c'}, {0, 'd'}, {-32768, 'e'}, {32767, 'f'}},
    {{1, 'a'}, {2, 'b'}, {3, 'c'}, {4, 'd'}, {5, 'e'}, {6, 'f'}},
    {{6, 'a'}, {6, 'b'}, {4, 'c'}, {4, 'd'}, {2, 'e'}, {2, 'f'}},
};

void body(unsigned epoch)
{
    struct record *own = records[epoch];
    for (unsigned i = 1; i < 6; i++) {
        short key = own[i].key;
        unsigned char name = own[i].name;
        unsigned at = i;
        while (at > 0 && own[at - 1].key > key) {
            own[at].key = own[at - 1].key;
            own[at].name = own[at - 1].name;
            at--;
        }
        own[at].key = key;
        own[at].name = name;
    }
}
