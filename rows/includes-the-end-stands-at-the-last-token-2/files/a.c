#define M - - - - - - - - - - - - - - - -
#define N M M M M M M M M M M M M M M M M
int x =
  N 1;
