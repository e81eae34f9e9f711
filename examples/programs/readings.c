// Readings of a sensor: smoothed, summed up, searched. Behind a colon stands what tools/loops-of says of a loop.
#include <stdio.h>
#include <stdlib.h>

enum { READINGS = 256, WINDOW = 4, ALARM = 990 };

struct station {
    int reading[READINGS];
    int smooth[READINGS];
};

// The next number of a simple sequence, in the place of a sensor.
static unsigned next(void)
{
    static unsigned state = 12345;
    state = state * 1103515245u + 12345u;
    return state >> 16 & 0x7fff;
}

// The mean of the readings around a place.
static int mean(const int *reading, int place)
{
    int sum = 0, count = 0;
    for (int i = place - WINDOW; i <= place + WINDOW; i++) {
        //: 256 2304 | carried count 28 (a reduction), sum 27 (a reduction) | computed i
        if (i >= 0 && i < READINGS) {
            sum += reading[i];
            count++;
        }
    }
    return sum / count;
}

// The first reading that is too high, or -1.
static int first_alarm(const struct station *station)
{
    for (int i = 0; i < READINGS; i++) { //: 1 122 | computed i
        if (station->reading[i] - station->smooth[i] > ALARM / 2)
            return i;
    }
    return -1;
}

int main(void)
{
    struct station *station = malloc(sizeof *station);
    for (int i = 0; i < READINGS; i++) //: 1 256 | computed i
        station->reading[i] = next() % 1000;

    // each on its own
    for (int i = 0; i < READINGS; i++) //: 1 256 | computed i
        station->smooth[i] = mean(station->reading, i);

    // a sum
    long total = 0;
    for (int i = 0; i < READINGS; i++) //: 1 256 | carried total 57 (a reduction) | computed i
        total += station->smooth[i];

    printf("mean %ld, alarm at %d\n", total / READINGS, first_alarm(station));
    free(station);
    return 0;
}
