// Two loops in a line, blocks of the heap, an array of the frame, a variable of the thread's, a load in a condition.
#include <stdlib.h>
short table[12];
_Thread_local int seen;
__attribute__((noinline)) static int weight(int n) { seen += n; return n * 3 + seen; }
int main(void)
{
    for (int i = 0; i < 12; i++) table[i] = i; for (int i = 0; i < 6; i++) table[i] += table[11 - i];
    //: 1 12 | computed i //: 1 6 | computed i
    int frame[8], sum = 0, *volatile hidden = frame;
    for (int i = 0; i < 8; i++) hidden[i] = i * i; //: 1 8 | computed i
    int *blocks[4];
    for (int i = 0; i < 4; i++) //: 1 4 | computed i
    {
        blocks[i] = calloc(10, 4);
    }
    blocks[3][2] = 4;
    for (int i = 0; i < 8; i++) { //: 1 8 | carried sum 20 (a reduction) | computed i
        frame[i] += blocks[3][i];
        sum += table[i] + weight(frame[i]);
    }
    int *count = blocks[0];
    *count = 6;
    int last = 0;
    for (int i = 0; i < 9; i++) { //: 1 9 | carried last 26 (a reduction) | computed i
        last += weight(i);
    }
    // (the condition's load and the body's are one to LLVM where they are joined before the loop is rotated)
    volatile int *stop = blocks[1];
    *stop = 5;
    int *from = blocks[2];
    for (int i = 0; i < *count; i++) //: 1 6 | computed i
        from[i] = *count - 1;
    return sum + last + from[2] + *stop & 127;
}
