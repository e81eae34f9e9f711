//: goto_into.c:9: a computed goto leads into it
int main(int argc, char **argv)
{
    static void *at[] = {&&next, &&end};
    int s = 0, i = argc - 1;
    goto *at[argc - 1 & 1];
next:
    s += i;
    if (++i < 10) goto next;
end:
    return s;
}
