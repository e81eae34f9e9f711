/* Hooks of the emulator that count, in C since they are called at each block: the steps of a run, and the iterations of
   a loop with the longest of them. */
#include <stdint.h>

struct steps {
    /* of the blocks that have begun; where the last one ends; how many of the steps were marks */
    uint64_t total, end, marked;
};

struct iterations {
    struct steps *steps;
    /* open: the entry has begun an iteration; number: of the next one in its entry */
    uint64_t count, open, began, number, longest, longest_number;
};

void loops_block(void *machine, uint64_t address, uint32_t size, struct steps *steps)
{
    (void)machine;
    steps->total += size / 4;
    steps->end = address + size;
}

/* The steps up to an instruction of the last block, without marks. */
uint64_t loops_now(const struct steps *steps, uint64_t address)
{
    return steps->total - (steps->end - address) / 4 - steps->marked;
}

/* The last iteration ends now. */
void loops_measure(struct iterations *of, uint64_t now)
{
    if (of->open && now - of->began > of->longest) {
        of->longest = now - of->began;
        of->longest_number = of->number - 1;
    }
    of->open = 0;
}

void loops_iteration(void *machine, uint64_t address, uint32_t size, struct iterations *of)
{
    uint64_t now = loops_now(of->steps, address);
    (void)machine; (void)size;
    loops_measure(of, now);
    of->count += 1;
    of->number += 1;
    of->open = 1;
    of->began = now;
    of->steps->marked += 1;
}
