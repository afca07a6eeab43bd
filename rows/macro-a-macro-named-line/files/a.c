#define __LINE__(a, b) a
int x = __LINE__(1, 2);
