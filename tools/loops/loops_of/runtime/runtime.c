/* What a program needs below picolibc: characters in and out, an end, and what runs before main. A system call has its
   number in a7. */
#include <errno.h>
#include <stdio.h>
#include <stdlib.h>

enum { END, PUT, PUT_ERROR, GET };

static long call(long number, long given)
{
    register long a7 __asm__("a7") = number;
    register long a0 __asm__("a0") = given;
    __asm__ volatile("ecall" : "+r"(a0) : "r"(a7) : "memory");
    return a0;
}

static int put(char c, FILE *file) { (void)file; call(PUT, (unsigned char)c); return c; }
static int put_error(char c, FILE *file) { (void)file; call(PUT_ERROR, (unsigned char)c); return c; }
static int get(FILE *file) { (void)file; long c = call(GET, 0); return c < 0 ? _FDEV_EOF : c; }
static FILE console = FDEV_SETUP_STREAM(put, get, NULL, _FDEV_SETUP_RW);
static FILE errors = FDEV_SETUP_STREAM(put_error, NULL, NULL, _FDEV_SETUP_WRITE);
FILE *const stdin = &console, *const stdout = &console, *const stderr = &errors;

void _exit(int status) { for (;;) call(END, status); }
int getpid(void) { return 1; }
int kill(int process, int signal) { (void)process; _exit(128 + signal); return 0; }

/* There are no files but the three that are open. */
int open(const char *name, int flags, ...) { (void)name; (void)flags; errno = ENOENT; return -1; }
int close(int file) { (void)file; return 0; }
int unlink(const char *name) { (void)name; errno = ENOENT; return -1; }
int fstat(int file, void *to) { (void)file; (void)to; errno = EBADF; return -1; }
int isatty(int file) { (void)file; return 0; }
long long lseek(int file, long long to, int from) { (void)file; (void)to; (void)from; errno = ESPIPE; return -1; }

long read(int file, void *to, unsigned count)
{
    unsigned i = 0;
    for (long c; file == 0 && i < count && (c = call(GET, 0)) >= 0; i++) ((char *)to)[i] = c;
    return file == 0 ? (long)i : -1;
}

long write(int file, const void *from, unsigned count)
{
    for (unsigned i = 0; i < count; i++) call(file == 1 ? PUT : PUT_ERROR, ((const unsigned char *)from)[i]);
    return count;
}

/* Time stands still, so that two runs are the same. */
int gettimeofday(void *to, void *zone) { (void)zone; for (int i = 0; to && i < 4; i++) ((int *)to)[i] = 0; return 0; }

/* Atomic accesses, of a program that has one thread. */
#define FETCH(BYTES, T, NAME, OPERATION) \
    T __atomic_fetch_##NAME##_##BYTES(T *at, T by, int order) \
    { \
        T was = *at; \
        (void)order; \
        *at = was OPERATION by; \
        return was; \
    }
#define ATOMIC(BYTES, T) \
    T __atomic_load_##BYTES(T *at, int order) { (void)order; return *at; } \
    void __atomic_store_##BYTES(T *at, T to, int order) { (void)order; *at = to; } \
    T __atomic_exchange_##BYTES(T *at, T to, int order) { T was = *at; (void)order; *at = to; return was; } \
    int __atomic_compare_exchange_##BYTES(T *at, T *expected, T to, int order, int other) \
    { \
        T was = *at; int same = was == *expected; \
        (void)order; (void)other; \
        *(same ? at : expected) = same ? to : was; \
        return same; \
    } \
    FETCH(BYTES, T, add, +) FETCH(BYTES, T, sub, -) FETCH(BYTES, T, and, &) \
    FETCH(BYTES, T, or, |) FETCH(BYTES, T, xor, ^)
ATOMIC(1, unsigned char)
ATOMIC(2, unsigned short)
ATOMIC(4, unsigned)
ATOMIC(8, unsigned long long)

extern void (*const __init_array_start[])(void), (*const __init_array_end[])(void);
int main(int argc, char **argv);

void loops_main(int argc, char **argv)
{
    for (void (*const *each)(void) = __init_array_start; each != __init_array_end; each++) (*each)();
    exit(main(argc, argv));
}
