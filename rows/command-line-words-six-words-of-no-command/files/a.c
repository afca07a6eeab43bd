int x;
int y = x;
