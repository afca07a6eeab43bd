#include "table.h"

struct entry table[LIMIT] = { { FIRST_WORD, 1 }, { "second", 1 }, { "third", 1000 } };

size_t entries(void)
{
    return sizeof table / sizeof table[0];
}

unsigned long cycles(void)
{
    unsigned long low = 1, high = 0;
#if defined(__x86_64__)
    __asm__ ("rdtsc" : "=a" (low), "=d" (high) : : "memory", "cc");
#endif
    return high << 32 | low;
}
