#define B A
