// Counts words of standard input, as the command line says: its loops call the system, but for that over the words.
#include <stdio.h>
#include <stdlib.h>
#include <string.h>
static char text[1000];
int main(int argc, char **argv)
{
    int least = 0, length = 0, words = 0, inside = 0;
    for (int i = 1; i < argc; i++)
        if (!strcmp(argv[i], "-n") && i + 1 < argc) least = atoi(argv[++i]);
    for (int c; (c = getchar()) != EOF && length < 999; )
        text[length++] = c;
    for (int i = 0; i < length; i++) {
        int now = text[i] != ' ' && text[i] != '\n';
        words += now && !inside;
        inside = now;
    }
    printf("%d\n", words);
    fflush(stdout);
    if (words < least) abort();
    return words == 3;
}
