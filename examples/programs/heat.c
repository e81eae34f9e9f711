// Heat along a rod, in steps of time: within a step each place is on its own, and a step needs the one before.
#include <stdio.h>

enum { PLACES = 40, STEPS = 12 };

static float rod[2][PLACES];

int main(void)
{
    rod[0][0] = rod[1][0] = 100;
    for (int step = 0; step < STEPS; step++) { //: 1 12 | computed step
        const float *from = rod[step & 1];
        float *to = rod[~step & 1];
        for (int i = 1; i < PLACES - 1; i++) //: 12 456 | computed i
            to[i] = from[i] + (from[i - 1] - 2 * from[i] + from[i + 1]) / 4;
    }
    float warmest = 0;
    for (int i = 1; i < PLACES; i++) //: 1 39 | carried warmest 19 | computed i
        if (rod[0][i] > warmest) warmest = rod[0][i];
    printf("%.2f %.2f\n", rod[0][1], warmest);
    return 0;
}
