// Loops of every form: early returns, what is kept and what isn't, arrays of an iteration's own, recursion, floating
// point, lists, switches.
#include <math.h>
#include <setjmp.h>
#include <stdio.h>
#include <stdlib.h>
#include <string.h>
unsigned seed = 1;
static unsigned rnd(void) { seed = seed * 1103515245u + 12345u; return seed >> 16; }
int in[200]; double real[50]; float single[50]; long long wide[50];
struct item { int key; char name[12]; struct item *next; };

static int early(int want)
{
    for (int i = 0; i < 200; i++) { //: 1 151 | carried retval 18 | computed i
        // (the value that is returned is a variable of LLVM's, which only the leaving iteration sets)
        if (in[i] == want) return i;
        for (int j = 0; j < 3; j++) if (in[i] + j == -want) return -i; //: 150 450 | computed j | exits 2
    }
    return -1;
}
static int nested_keep(void)
{
    int best = 0, last = 7;
    for (int i = 0; i < 200; i++) { //: 1 200 | carried best 26, last 28 | computed i
        int t = in[i] & 1 ? in[i] : best;
        if (in[i] & 2) best = t;
        else if (in[i] & 4) last = t + best;
    }
    return best * 1000 + last;
}
static int own_array(void)
{
    int sum = 0;
    for (int i = 0; i < 100; i++) { //: 1 100 | computed i | own tmp
        int tmp[16];
        for (int j = 0; j < 16; j++) tmp[j] = in[i] * j; //: 100 1600 | computed j
        for (int j = 1; j < 16; j++) tmp[j] += tmp[j - 1]; //: 100 1500 | computed j
        in[i] ^= tmp[15];
    }
    return sum;
}
static int even(int n);
static int odd(int n)
{
    int s = 0;
    for (int i = 0; i < 3; i++) //: 9 27 | carried s 48 (a reduction) | computed i
        s += n <= 0 ? 0 : even(n - 1 - i) + 1;
    return s;
}
static int even(int n)
{
    int s = 1;
    for (int i = 0; i < 2; i++) //: 12 24 | carried s 55 (a reduction) | computed i
        s += n <= 0 ? 1 : odd(n - 1 - i);
    return s;
}
static int vla(int n)
{
    int s = 0;
    for (int i = 1; i < n; i++) {
        //: refused 63: looks at the stack of its function (an array of variable length, va_arg)
        int a[i];
        a[i - 1] = i;
        s += a[i - 1];
    }
    return s;
}
static jmp_buf back;
static int jumps(void)
{
    volatile int s = 0;
    for (int i = 0; i < 5; i++) { //: refused 74: calls a function that returns twice (setjmp)
        if (setjmp(back) == 0) longjmp(back, 1);
        s += i;
    }
    return s;
}
static int compare(const void *a, const void *b) { return *(const int *)a - *(const int *)b; }
int main(void)
{
    for (int i = 0; i < 200; i++) in[i] = rnd() % 1000; //: 1 200 | computed i
    double total = 0;
    float most = 0;
    for (int i = 0; i < 50; i++) { //: 1 50 | computed i
        real[i] = sqrt(i) * 1.5;
        single[i] = (float)real[i] - 3;
        wide[i] = (long long)i << 33;
    }
    for (int i = 0; i < 50; i++) total += real[i]; //: 1 50 | carried total 90 (a reduction) | computed i
    for (int i = 0; i < 50; i++) if (single[i] > most) most = single[i]; //: 1 50 | carried most 91 | computed i
    long long all = 0;
    for (long long i = 49; i >= 0; i -= 3) all ^= wide[i] + i; //: 1 17 | carried all 93 (a reduction) | computed i
    int e = early(in[150]), n = nested_keep(), o = own_array(), m = odd(4), v = vla(9), j = jumps();
    struct item *list = 0, *tail = 0;
    for (int i = 0; i < 40; i++) { //: 1 40 | carried list 97, tail 97 | computed i
        struct item *one = malloc(sizeof *one);
        one->key = in[i];
        one->next = 0;
        snprintf(one->name, sizeof one->name, "n%d", i);
        if (tail) tail->next = one; else list = one;
        tail = one;
    }
    int count = 0;
    unsigned hash = 5381;
    for (struct item *one = list; one; one = one->next) //: 1 40 | carried count 109, hash 108, one 106
        for (char *c = one->name; *c; c++) { //: 40 110 | carried hash 108 | computed c, count
            hash = hash * 33 + *c;
            count++;
        }
    int state = 0, words = 0;
    const char *text = "the quick  brown fox jumps over the lazy dog";
    for (const char *c = text; ; c++) { //: 1 45 | carried state 120, words 120 | computed c
        switch (*c) {
        case 0: goto done;
        case ' ': state = 0; continue;
        case 'z': words += 100; break;
        default: break;
        }
        if (!state) { state = 1; words++; }
    }
done:
    for (int i = 0; i < 4; i++) qsort(in + 50 * i, 50, sizeof in[0], compare); //: 1 4 | computed i
    do { //: 1 90 | carried hash 126 (a reduction) | computed count
        count--;
        hash ^= in[count & 127];
    } while (count > 20);
    for (int i = 0, k = 100; i < k; i += 2, k -= 3) in[i] = in[k]; //: 1 20 | computed i, k
    struct item copies[8];
    for (int i = 0; i < 8; i++) { //: 1 8 | carried list 133 | computed i
        copies[i] = *list;
        copies[i].key += i;
        list = list->next;
    }
    while (list) { struct item *next = list->next; free(list); list = next; } //: 1 32 | carried list 135
    printf("%d %d %d %d %d %d %d %u %d %d %d %f %f %lld\n", e, n, o, m, v, j, count, hash, words, in[33],
           copies[7].key, total, most, all);
    return 0;
}
