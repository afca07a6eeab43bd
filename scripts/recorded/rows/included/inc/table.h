#ifndef TABLE_H
#define TABLE_H
#include <stddef.h>
#include "limits.h"

struct entry { const char *name; int weight; };

extern struct entry table[LIMIT];
size_t entries(void);
unsigned long cycles(void);

#endif
