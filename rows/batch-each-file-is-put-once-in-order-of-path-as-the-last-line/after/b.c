#include "h.h"
int main(void) { return total; }
