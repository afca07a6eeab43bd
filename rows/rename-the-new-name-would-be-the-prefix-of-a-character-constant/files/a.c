#define n 1 +
int k = n'a';
