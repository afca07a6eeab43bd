int x;
int a
