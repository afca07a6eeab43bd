int a = b;
int
