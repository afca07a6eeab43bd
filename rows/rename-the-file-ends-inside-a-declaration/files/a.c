int x;
int y