#include <stdio.h>
#include "table.h"

int weight_of(const struct entry *entry)
{
    return entry->weight < OWN_LIMIT ? entry->weight : OWN_LIMIT;
}

int main(void)
{
    size_t count = entries();
    int total = 0;
    for (size_t place = 0; place < count; place++) {
        printf("%s %d\n", NAME_OF(&table[place]), weight_of(&table[place]));
        total += weight_of(&table[place]);
    }
    return total != 9 || cycles() == 0;
}
