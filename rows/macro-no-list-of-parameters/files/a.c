#define Z() 1
int x = Z();
