int a\
b;
int c = ab;
