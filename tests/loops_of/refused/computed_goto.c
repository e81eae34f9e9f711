//: computed_goto.c:7: it is left in another way than by branches and switches \(a computed goto\)
int main(void)
{
    static void *at[] = {&&two, &&three};
    int s = 0, i = 0;
    for (;;) {
        goto *at[i & 1];
two:    s += 2; i++; continue;
three:  s += 3; i++; if (i > 9) break;
    }
    return s;
}
