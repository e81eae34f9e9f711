// Counts words in a table with chains: words of one chain are a dependence, and most aren't.
#include <stdio.h>
#include <stdlib.h>
#include <string.h>

enum { CHAINS = 32, LONGEST = 12 };

struct entry { struct entry *next; int count; char word[LONGEST]; };

static struct entry *chain[CHAINS];
static const char text[] = "the loop of a program runs as if its turns came one after the other and the machine "
                           "runs them side by side and the turns that read what a turn before them has yet to "
                           "write run again and so the end of the loop is the same end";

static unsigned place_of(const char *word)
{
    unsigned hash = 5381;
    for (; *word; word++) hash = hash * 33 + *word; //: 50 175 | carried hash 18 | computed word
    return hash % CHAINS;
}

static void count(const char *word)
{
    struct entry **at = &chain[place_of(word)];
    while (*at && strcmp((*at)->word, word)) at = &(*at)->next; //: 27 33 | carried at 25
    if (!*at) {
        *at = calloc(1, sizeof **at);
        strcpy((*at)->word, word);
    }
    (*at)->count++;
}

int main(void)
{
    int starts[64], words = 0, most = 0;
    for (int i = 0; text[i]; i++) //: 1 224 | carried words 37 | computed i
        if (i == 0 || text[i - 1] == ' ') starts[words++] = i;
    for (int i = 0; i < words; i++) { //: 1 50 | computed i | own word
        char word[LONGEST] = {0};
        for (int j = 0; j < LONGEST - 1 && text[starts[i] + j] > ' '; j++) //: 50 225 | computed j
            word[j] = text[starts[i] + j];
        count(word);
    }
    for (int i = 0; i < CHAINS; i++) //: 1 32 | carried most 46 | computed i
        for (struct entry *one = chain[i]; one; one = one->next) //: 23 34 | carried most 46, one 45
            if (one->count > most) most = one->count;
    printf("%d words, the most frequent %d times\n", words, most);
    return 0;
}
