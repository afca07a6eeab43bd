#include <h.h>
int x;
