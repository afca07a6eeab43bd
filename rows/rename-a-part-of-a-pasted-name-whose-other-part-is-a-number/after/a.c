#define N(d) z##d
int z1;
int w = N(1);
