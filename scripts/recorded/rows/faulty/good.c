#include "common.h"
struct total kept;
int add(int value)
{
    int local = value;
    kept.sum += local;
    return kept.count++;
}
