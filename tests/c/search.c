// A search that exits the loop: epoch e looks at its key, and the first epoch that finds the wanted one returns 1.
//> end exit 8
//> found_at 00000 08000000
//> looked_at 00000 09000000
// image: --epochs 20 --limit 100 --exit
const unsigned short keys[20] = {31, 7, 512, 90, 3, 44, 1000, 65535, 42, 8, 42, 1, 2, 3, 4, 5, 6, 7, 8, 9};
unsigned looked_at;
unsigned found_at = 0xffffffff;

unsigned body(unsigned epoch)
{
    looked_at += 1;
    if (keys[epoch] != 42) {
        return 0;
    }
    found_at = epoch;
    return 1;
}
