// Allocation that only counts up. A further source for tools/image-of, with --stack: it goes beside code that calls malloc and free. The heap
// has HEAP bytes, -D HEAP=4096 where nothing else is said; where it is used up they return 0, and free gives nothing back.
//
// All epochs take from one heap, so an epoch that allocates depends on the one before it that did. `allocate` takes from a part that the epoch has
// to itself, so that epochs don't meet: there are ARENAS of ARENA bytes, a power of two, of which 16 count: -D ARENA=64 -D ARENAS=16.
#ifndef HEAP
#define HEAP 4096
#endif
typedef __SIZE_TYPE__ size;

void *malloc(size bytes);
void free(void *block);

static unsigned char heap[HEAP] __attribute__((aligned(16)));
static size heap_used;

void *malloc(size bytes)
{
    if (bytes > HEAP - heap_used)
        return 0;
    void *block = heap + heap_used;
    heap_used += (bytes + 15) & ~(size)15;
    if (heap_used > HEAP)
        heap_used = HEAP;
    return block;
}

void free(void *block)
{
    (void)block;
}

#ifdef ARENA
void *allocate(unsigned epoch, size bytes);

_Static_assert(ARENA >= 32 && (ARENA & (ARENA - 1)) == 0, "ARENA is a power of two from 32 on");
#define ROOM (ARENA - 16)

// Each begins a line of its own, with what is taken of it; so finding one needs no multiplication.
static struct {
    size used;
    unsigned char bytes[ROOM] __attribute__((aligned(16)));
} arenas[ARENAS] __attribute__((aligned(ARENA)));

void *allocate(unsigned epoch, size bytes)
{
    if (epoch >= ARENAS || bytes > ROOM - arenas[epoch].used)
        return 0;
    void *block = arenas[epoch].bytes + arenas[epoch].used;
    arenas[epoch].used += (bytes + 15) & ~(size)15;
    if (arenas[epoch].used > ROOM)
        arenas[epoch].used = ROOM;
    return block;
}
#endif
