

#define A
