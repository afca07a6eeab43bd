#define N(d) v##d
int v1;
int w = N(1);
