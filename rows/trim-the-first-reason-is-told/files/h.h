#pragma p
int shared;
#define A 1
