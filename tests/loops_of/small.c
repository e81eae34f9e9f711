// Six plain loops. What stands behind the sign of a remark with a colon is what the listing has to say of the loop of
// that line, worked out by hand: entries, iterations, and what it carries, computes and owns.
#include <stdio.h>
#include <stdlib.h>
int a[64];
int hist[16];
struct node { struct node *next; int v; };
int main(void)
{
    int max = -1, at = -1, sum = 0;
    for (int i = 0; i < 64; i++) //: 1 64 | computed i
        a[i] = (i * 37 + 11) % 101;
    for (int i = 0; i < 64; i++) { //: 1 64 | carried at 14, max 15 | computed i
        if (a[i] > max) {
            max = a[i];
            at = i;
        }
    }
    for (int i = 0; i < 64; i++) //: 1 64 | carried sum 20 (a reduction) | computed i
        sum += a[i];
    for (int i = 0; i < 64; i++) //: 1 64 | computed i
        hist[a[i] & 15]++;
    struct node *head = 0;
    for (int i = 0; i < 20; i++) { //: 1 20 | carried head 25 | computed i
        struct node *n = malloc(sizeof *n);
        n->v = a[i];
        n->next = head;
        head = n;
    }
    int found = -1, steps = 0;
    for (struct node *n = head; n; n = n->next) { //: 1 19 | carried n 31 | computed steps
        steps++;
        if (n->v == 48) {
            found = steps;
            break;
        }
    }
    printf("%d %d %d %d %d\n", max, at, sum, found, hist[3]);
    return sum == 3000;
}
