// Copies, fills and comparisons: the functions of these names that compilers call for whole objects, and the length of a text. A further
// source for tools/image-of: it goes with --stack, since a function that calls needs one. A byte at a time, as the C standard says them.
#ifdef __clang__
#define PLAIN __attribute__((no_builtin))
#else
#define PLAIN
#endif
typedef __SIZE_TYPE__ size;

void *memcpy(void *to, const void *from, size count);
void *memmove(void *to, const void *from, size count);
void *memset(void *to, int value, size count);
int memcmp(const void *one, const void *other, size count);
size strlen(const char *text);

PLAIN void *memcpy(void *to, const void *from, size count)
{
    unsigned char *target = to;
    const unsigned char *source = from;
    for (size i = 0; i < count; i++)
        target[i] = source[i];
    return to;
}

// Backwards where the target lies behind the source, so that no byte is overwritten before it is read.
PLAIN void *memmove(void *to, const void *from, size count)
{
    unsigned char *target = to;
    const unsigned char *source = from;
    if (target < source)
        for (size i = 0; i < count; i++)
            target[i] = source[i];
    else
        for (size i = count; i > 0; i--)
            target[i - 1] = source[i - 1];
    return to;
}

PLAIN void *memset(void *to, int value, size count)
{
    unsigned char *target = to;
    for (size i = 0; i < count; i++)
        target[i] = (unsigned char)value;
    return to;
}

PLAIN int memcmp(const void *one, const void *other, size count)
{
    const unsigned char *a = one, *b = other;
    for (size i = 0; i < count; i++)
        if (a[i] != b[i])
            return a[i] < b[i] ? -1 : 1;
    return 0;
}

PLAIN size strlen(const char *text)
{
    size length = 0;
    while (text[length] != 0)
        length++;
    return length;
}
